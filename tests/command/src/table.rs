//! The table of refusals, held against the one that the tests share and against `docs/FORMAT.md`.

use crate::binary;
use burmelox_command::rules::{Rule, RULES};
use harness::files;
use harness::report::{equal, Outcome, Report};

pub fn run(report: &mut Report) {
    report.add("the table has every number", has_every_number());
    report.add("the table is the format's", is_in_format());
    report.add("every number is explained", is_explained());
}

/// The same numbers, in rising order, each with its sheet.
fn has_every_number() -> Outcome {
    let shared = refusals::RULES.iter();
    let mut shared: Vec<(u32, String)> =
        shared.map(|rule| (rule.number, format!("{:?}", rule.sheet).to_lowercase())).collect();
    shared.sort();
    let listed = RULES.iter().map(|rule| (rule.number, rule.sheet.to_string())).collect();
    equal("the numbers and their sheets", &shared, &listed)
}

/// Each row of the format's table has the number, the sheet and what is wrong as the command does.
fn is_in_format() -> Outcome {
    let text = files::read_text("docs/FORMAT.md")?;
    let is_missing = |rule: &&Rule| {
        let Rule { number, sheet, wrong, .. } = rule;
        !text.contains(&format!("\n| {number} | {sheet} | {wrong} |"))
    };
    let missing: Vec<u32> = RULES.iter().filter(is_missing).map(|rule| rule.number).collect();
    equal("the numbers with other words", &Vec::new(), &missing)
}

/// `explain` tells of each number, and of each answer the same and its index.
fn is_explained() -> Outcome {
    for rule in RULES {
        let run = binary::run(&["explain", &rule.number.to_string()]);
        run.ends_with(0)?;
        equal("what is wrong is told", &true, &run.text().contains(rule.wrong))?;
        let answer = (rule.sheet as u64) << 32 | u64::from(rule.number) << 16 | 7;
        let answered = binary::run(&["explain", &answer.to_string()]);
        let line = format!("answer {answer}: refused {} at 7\n", rule.number);
        equal("the answer's text", &(run.text() + &line), &answered.text())?;
    }
    Ok(())
}
