//! Holds the program and the library against the oracle, which was written from documents 01 and 02
//! alone.
//!
//!     cargo run --bin compare [-- --seed N --cases N --library]
//!
//! `named` has the tests of single sheets, `limits` those of all fields of limits sheets, `pages`
//! those of pages, `profiles` those of profiles, `larger` what larger ones leave as it is,
//! `listings` the texts of sheets and profiles, `documents` the tables in other files, `floors` what
//! a floor means, `random` each kind of random cases, `answers` the comparison itself. The program
//! is the one that `make` builds, or that BURMELOX_PROGRAM names. `--library` leaves it out of the
//! random cases.

mod answers;
mod documents;
mod floors;
mod larger;
mod limits;
mod listings;
mod named;
mod pages;
mod profiles;
mod program;
mod random;

use harness::report::Report;
use refusals::{EntryPoint::Program, LIBRARY};
use std::process::ExitCode;

fn main() -> ExitCode {
    let options = match options(std::env::args().skip(1)) {
        Ok(options) => options,
        Err(mistake) => {
            eprintln!("{mistake}\nusage: compare [--seed N] [--cases N] [--library]");
            return ExitCode::from(2);
        }
    };
    if let Err(mistake) = program::is_built() {
        eprintln!("{mistake}");
        return ExitCode::from(2);
    }
    let mut report = Report::default();
    named::run(&mut report);
    limits::run(&mut report);
    pages::run(&mut report);
    profiles::run(&mut report);
    larger::run(&mut report);
    listings::run(&mut report);
    documents::run(&mut report);
    floors::run(&mut report);
    random::run(&mut report, &options);
    report.end()
}

/// The options in the arguments: the seed is fixed unless one is given.
fn options(mut arguments: impl Iterator<Item = String>) -> Result<random::Options, String> {
    let entry_points = LIBRARY.into_iter().chain([Program]).collect();
    let mut options = random::Options { seed: 1, cases: 20_000, entry_points };
    while let Some(name) = arguments.next() {
        let mut number = || {
            let number = arguments.next().and_then(|text| text.parse::<u64>().ok());
            number.ok_or(format!("{name} needs a number"))
        };
        match name.as_str() {
            "--seed" => options.seed = number()?,
            "--cases" => options.cases = number()? as usize,
            "--library" => options.entry_points = LIBRARY.to_vec(),
            _ => return Err(format!("{name} is unknown")),
        }
    }
    Ok(options)
}
