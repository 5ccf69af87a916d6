//! `burmelox explain`: what a refusal means and what to do.

use crate::arguments::{Arguments, Subcommand};
use crate::report::Report;
use crate::rules::{self, Refusal, Rule};
use crate::status::{trouble, Ending, Status, Trouble};

pub const SUBCOMMAND: Subcommand = Subcommand {
    name: "explain",
    operands: "NUMBER",
    count: 1..=1,
    summary: "Tells what a refusal means and what to do.",
    about: "\
NUMBER is that of a refusal, as 19, or a whole answer of the library, as
8591179776 or 0x200130000.
",
    options: &[],
    run,
};

fn run(arguments: &Arguments) -> Ending {
    let word = &arguments.operands[0];
    let mut report = Report::new(arguments);
    let answer = number(word)?;
    if let Some(refusal) = Refusal::of(answer) {
        tell_rule(&mut report, rule_of(refusal, word)?);
        report.line(&format!("answer {answer}: {refusal}"));
        report.fields().number("index", refusal.index);
    } else {
        let rule = rules::rule(answer as u32);
        let missing = || Trouble(format!("explain: no refusal has the number {answer}"));
        tell_rule(&mut report, rule.ok_or_else(missing)?);
    }
    report.print(Vec::new())?;
    Ok(Status::Done)
}

/// A decimal number, or a hexadecimal one behind 0x.
fn number(word: &str) -> Result<u64, Trouble> {
    let parsed = match word.strip_prefix("0x") {
        Some(digits) => u64::from_str_radix(digits, 16),
        None => word.parse(),
    };
    parsed.or_else(|_| trouble(format!("explain: expected a number, found {word:?}")))
}

/// The rule of an answer, which has to blame the sheet of its number.
fn rule_of(refusal: Refusal, word: &str) -> Result<&'static Rule, Trouble> {
    let rule = rules::rule(refusal.number).filter(|rule| rule.sheet as u32 == refusal.sheet);
    rule.ok_or_else(|| Trouble(format!("explain: {word} is no answer of the library")))
}

fn tell_rule(report: &mut Report, rule: &Rule) {
    report.line(&format!("refusal {}", rule.number));
    report.fields().number("number", rule.number);
    report.note("sheet", "sheet at fault", &rule.sheet.to_string());
    report.note("wrong", "what is wrong", rule.wrong);
    report.note("counts", "index", &rule.index.to_string());
    report.note("remedy", "what to do", rule.remedy);
}
