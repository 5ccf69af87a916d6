//! Tests of the command `burmelox`.
//!
//!     cargo run --bin command
//!
//! `round_trips` reads sheets from the texts that the library writes of them, `advice` holds the
//! advice on refusals against the library and the oracle, `table` the table of refusals and
//! `manuals` the options against the documents. The others run the command: `statuses` for its exit
//! status, `mistakes` for what it says of texts that can't be read, `writes` for what it leaves in
//! files, `machines` for its JSON, read by `json`, `pictures` for its pictures, read by `xml`,
//! `batches` for its batches, `walk` for what README shows of it. `binary` runs it.

mod advice;
mod batches;
mod binary;
mod json;
mod machines;
mod manuals;
mod mistakes;
mod pictures;
mod round_trips;
mod statuses;
mod table;
mod walk;
mod writes;
mod xml;

use harness::report::Report;
use std::process::ExitCode;

fn main() -> ExitCode {
    if let Err(missing) = harness::command::is_built() {
        eprintln!("{missing}");
        return ExitCode::from(2);
    }
    let mut report = Report::default();
    round_trips::run(&mut report);
    advice::run(&mut report);
    table::run(&mut report);
    manuals::run(&mut report);
    statuses::run(&mut report);
    mistakes::run(&mut report);
    writes::run(&mut report);
    machines::run(&mut report);
    pictures::run(&mut report);
    batches::run(&mut report);
    walk::run(&mut report);
    report.end()
}
