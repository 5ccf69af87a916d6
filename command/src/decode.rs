//! `burmelox decode`: the library's text of a sheet.

use crate::arguments::{Arguments, Opt, Subcommand};
use crate::fault::Blamed;
use crate::files::Inputs;
use crate::held::{Contents, Kind};
use crate::report::Report;
use crate::rules::Refusal;
use crate::status::{trouble, Ending, Status, Trouble};
use crate::telling::tell_refusal;
use crate::text::is_text;

pub const SUBCOMMAND: Subcommand = Subcommand {
    name: "decode",
    operands: "SHEET",
    count: 1..=1,
    summary: "Prints the text of a sheet, as the library writes it.",
    about: "\
What the file holds is found by trying. A text is printed again in the library's
form. Refusals are told on standard error.
",
    options: &[
        Opt::new("--as", "KIND", "what the file holds: claim, proof, both or limits"),
        Opt::new("-o", "FILE", "write the text there, not to standard output"),
    ],
    run,
};

fn run(arguments: &Arguments) -> Ending {
    let named = kind(arguments)?;
    let file = &arguments.operands[0];
    let bytes = Inputs::default().read(file)?;
    let contents = match named {
        _ if is_text(&bytes) => Some(Contents::of_text(file, &bytes)?),
        Some(kind) => Some(Contents::of_bytes(file, &bytes, kind)),
        None => found(file, &bytes)?,
    };
    let mut report = Report::new(arguments);
    let Some(contents) = contents else {
        tell_no_kind(&mut report, file, &bytes);
        report.print_aside()?;
        return Ok(Status::Refused);
    };
    match text(&mut report, &contents) {
        Ok(text) => {
            report.hand_out(arguments.value("-o"), text.as_bytes())?;
            Ok(Status::Done)
        }
        Err(refusal) => {
            tell_refusal(&mut report, refusal, Blamed::from(&contents));
            report.print_aside()?;
            Ok(Status::Refused)
        }
    }
}

/// The kind that the arguments name.
fn kind(arguments: &Arguments) -> Result<Option<Kind>, Trouble> {
    let Some(name) = arguments.value("--as") else { return Ok(None) };
    match Kind::ALL.into_iter().find(|kind| kind.name() == name) {
        None => trouble(format!("--as: expected claim, proof, both or limits, found {name:?}")),
        found => Ok(found),
    }
}

/// The texts of all sheets one after another, or the first refusal.
fn text(report: &mut Report, contents: &Contents) -> Result<String, Refusal> {
    let mut all = String::new();
    for (name, _, text) in contents.texts() {
        let text = text?;
        report.fields().text(name, &text);
        all.push_str(&text);
    }
    Ok(all)
}

/// The sheets in bytes, by the one kind that fits; none where no kind does.
fn found(file: &str, bytes: &[u8]) -> Result<Option<Contents>, Trouble> {
    let fitting: Vec<Kind> = Kind::ALL.into_iter().filter(|kind| fits(bytes, *kind)).collect();
    match fitting[..] {
        [] => Ok(None),
        [kind] => Ok(Some(Contents::of_bytes(file, bytes, kind))),
        _ => {
            let names: Vec<&str> = fitting.iter().map(|kind| kind.name()).collect();
            trouble(format!("{file}: this may be {}: say which, by --as", names.join(" or ")))
        }
    }
}

/// The library has a text of each sheet, and a claim and its proof have as many variables.
fn fits(bytes: &[u8], kind: Kind) -> bool {
    let contents = Contents::of_bytes("", bytes, kind);
    let n = |bytes: &[u8]| bytes.first().copied();
    let same = match (&contents.claim, &contents.proof) {
        (Some(claim), Some(proof)) => n(&claim.bytes) == n(&proof.bytes),
        _ => true,
    };
    same && contents.texts().iter().all(|(_, _, text)| text.is_ok())
}

/// Why each kind does not fit.
fn tell_no_kind(report: &mut Report, file: &str, bytes: &[u8]) {
    let why = if bytes.is_empty() { "the file is empty" } else { "this is no sheet" };
    report.line(&format!("refused: {why}"));
    report.fields().text("verdict", "refused");
    for kind in Kind::ALL {
        let contents = Contents::of_bytes(file, bytes, kind);
        let refusal = contents.texts().into_iter().find_map(|(_, _, text)| text.err());
        let words = match refusal {
            Some(refusal) => format!("{refusal}: {}", refusal.rule().wrong),
            None => "the proof has not as many variables as the claim".to_string(),
        };
        let name = kind.name();
        report.note(&format!("as_{name}"), &format!("as {name}"), &words);
    }
}
