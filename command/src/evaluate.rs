//! `burmelox evaluate`: a claim's polynomial at given offsets.

use crate::arguments::{Arguments, Subcommand, PROFILE};
use crate::fault::Blamed;
use crate::files::Inputs;
use crate::held;
use crate::library;
use crate::profiles;
use crate::report::Report;
use crate::rules::Refusal;
use crate::status::{trouble, Ending, Status, Trouble};
use crate::telling::{tell_refusal, tell_text};
use burmelox::Profile;

pub const SUBCOMMAND: Subcommand = Subcommand {
    name: "evaluate",
    operands: "CLAIM X ..",
    count: 1..=usize::MAX,
    summary: "Evaluates a claim's polynomial at offsets, one for each variable.",
    about: "\
Prints the claim as the library reads it, then the exact value there. Offsets
may be negative. A proof behind the claim in the same file is not looked at.
",
    options: &[PROFILE],
    run,
};

fn run(arguments: &Arguments) -> Ending {
    let given = profiles::given(arguments)?;
    let (file, offsets) = arguments.operands.split_first().expect("the claim is not left out");
    let offsets: Vec<i32> = offsets.iter().map(offset).collect::<Result<_, Trouble>>()?;
    let claim = held::claim(&mut Inputs::default(), file)?;
    let mut value = 0;
    let profile = given.unwrap_or(Profile::FULL);
    let answer = burmelox::evaluate(&claim.bytes, profile, &offsets, &mut value);

    let mut report = Report::new(arguments);
    tell_text(&mut report, "claim", library::claim_text(&claim.bytes));
    if let Some(profile) = given {
        tell_text(&mut report, "profile", library::profile_text(profile));
    }
    let status = match Refusal::of(answer) {
        None => {
            report.line(&format!("value {value}"));
            report.fields().text("verdict", "evaluated");
            report.fields().number("value", value);
            Status::Done
        }
        Some(refusal) => {
            let (claim, proof, limits) = (Some(&claim), None, None);
            let blamed = Blamed { claim, proof, limits, profile, range: None };
            tell_refusal(&mut report, refusal, blamed);
            Status::Refused
        }
    };
    report.print(Vec::new())?;
    Ok(status)
}

fn offset(word: &String) -> Result<i32, Trouble> {
    let found = || format!("evaluate: expected a whole number of 32 bits, found {word:?}");
    word.parse().or_else(|_| trouble(found()))
}
