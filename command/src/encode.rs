//! `burmelox encode`: a text as a sheet in bytes.

use crate::arguments::{Arguments, Opt, Subcommand};
use crate::fault::Blamed;
use crate::files::Inputs;
use crate::held::Contents;
use crate::report::Report;
use crate::rules::Refusal;
use crate::status::{trouble, Ending, Status};
use crate::telling::tell_refusal;
use std::io::{stdout, IsTerminal};

pub const SUBCOMMAND: Subcommand = Subcommand {
    name: "encode",
    operands: "TEXT",
    count: 1..=1,
    summary: "Writes the sheet of a text, in bytes.",
    about: "\
The text has a claim, a proof, a claim and then its proof, or limits. A weight
that is no whole number, as 0.25, 1.5e-3 or 1/3, is taken times the scale and
rounded. Refusals are told on standard error, and nothing is written then.
",
    options: &[Opt::new("-o", "FILE", "write the sheet there, not to standard output")],
    run,
};

fn run(arguments: &Arguments) -> Ending {
    let target = arguments.value("-o");
    let mut report = Report::new(arguments);
    if target.is_none() && !report.is_json() && stdout().is_terminal() {
        return trouble("encode: a sheet is not for a terminal: name a file after -o");
    }
    let file = &arguments.operands[0];
    let contents = Contents::of_text(file, &Inputs::default().read(file)?)?;
    match bytes(&contents) {
        Ok(bytes) => {
            let hex: String = bytes.iter().map(|byte| format!("{byte:02x}")).collect();
            report.fields().text("sheet", &hex);
            report.hand_out(target, &bytes)?;
            Ok(Status::Done)
        }
        Err(refusal) => {
            tell_refusal(&mut report, refusal, Blamed::from(&contents));
            report.print_aside()?;
            Ok(Status::Refused)
        }
    }
}

/// The bytes of sheets that the library has a text of, or its first refusal.
pub fn bytes(contents: &Contents) -> Result<Vec<u8>, Refusal> {
    let mut bytes = Vec::new();
    for (_, held, text) in contents.texts() {
        text?;
        bytes.extend(&held.bytes);
    }
    Ok(bytes)
}
