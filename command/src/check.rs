//! `burmelox check`: the verdict on a claim and its proof.

use crate::arguments::{Arguments, Opt, Subcommand, EXACT, LIMITS, PROFILE};
use crate::fault::Blamed;
use crate::files::Staged;
use crate::held::Sheets;
use crate::library::{self, Verdict};
use crate::profiles;
use crate::report::Report;
use crate::status::{Ending, Status, Trouble};
use crate::telling::{tell_accepted, tell_advice, tell_refusal, tell_sheets, tell_swapped};
use burmelox::Profile;

pub const SUBCOMMAND: Subcommand = Subcommand {
    name: "check",
    operands: "CLAIM [PROOF]",
    count: 1..=2,
    summary: "Checks whether a proof shows a claim's floor.",
    about: "\
Without PROOF the file CLAIM holds both. Files are sheets in bytes or as text,
- is standard input. Prints the claim as the library reads it, then the verdict;
of a refusal also what it means, what is at fault and what to do.
",
    options: &[
        LIMITS,
        PROFILE,
        EXACT,
        Opt::new("--page", "FILE", "write the verdict as a page to print"),
    ],
    run,
};

fn run(arguments: &Arguments) -> Ending {
    let given = profiles::given(arguments)?;
    let profile = given.unwrap_or(Profile::FULL);
    let sheets = Sheets::of(arguments)?;
    let (claim, proof) = (&sheets.claim.bytes, &sheets.proof.bytes);
    let verdict = library::check(claim, proof, &sheets.limits, profile);

    let mut report = Report::new(arguments);
    tell_sheets(&mut report, claim, &sheets, given);
    let status = match verdict.exact {
        Ok(_) => {
            tell_accepted(&mut report, &verdict.line);
            Status::Done
        }
        Err(refusal) => {
            tell_refusal(&mut report, refusal, Blamed::sheets(&sheets, profile));
            tell_swapped(&mut report, &sheets, refusal);
            tell_advice(&mut report, claim, &sheets, profile, refusal);
            Status::Refused
        }
    };
    report.print(staged(arguments, &verdict)?)?;
    Ok(status)
}

/// The files to write: the page of any verdict, and of an acceptance the exact proof.
fn staged(arguments: &Arguments, verdict: &Verdict) -> Result<Vec<Staged>, Trouble> {
    let mut files = Vec::new();
    if let (Some(name), Ok(exact)) = (arguments.value("-o"), &verdict.exact) {
        files.push(Staged::new(name, exact)?);
    }
    if let Some(name) = arguments.value("--page") {
        files.push(Staged::new(name, &verdict.page)?);
    }
    Ok(files)
}
