//! The options that the command has are those of its man page and of `docs/COMMAND.md`.

use crate::binary;
use harness::files;
use harness::report::{equal, Outcome, Report};
use std::collections::BTreeSet;

pub fn run(report: &mut Report) {
    for document in ["man/burmelox.1", "docs/COMMAND.md"] {
        report.add(&format!("options in {document}"), are_told(document));
    }
}

/// The usage lines of each subcommand have its options, and no others.
fn are_told(document: &str) -> Outcome {
    let usages = usages(&plain(&files::read_text(document)?));
    for name in subcommands() {
        let told = usages.iter().filter(|usage| usage.starts_with(&format!("{name} ")));
        let told: BTreeSet<String> = told.flat_map(|usage| options(usage)).collect();
        equal(&format!("the options of {name}"), &helped(&name), &told)?;
    }
    Ok(())
}

/// The text without the man page's changes of font.
fn plain(text: &str) -> String {
    ["\\fB", "\\fI", "\\fR"]
        .iter()
        .fold(text.replace("\\-", "-"), |text, font| text.replace(font, ""))
}

/// What follows `burmelox` in lines that begin with it, with the lines that are set in behind them.
fn usages(text: &str) -> Vec<String> {
    let mut usages: Vec<String> = Vec::new();
    for line in text.lines() {
        match line.trim_start().strip_prefix("burmelox ") {
            Some(usage) => usages.push(usage.to_string()),
            None if line.starts_with("      ") => {
                if let Some(usage) = usages.last_mut() {
                    usage.push_str(line);
                }
            }
            None => {}
        }
    }
    usages
}

/// The options in a usage, which also has negative numbers.
fn options(usage: &str) -> Vec<String> {
    let is_letter = |letter: char| letter.is_ascii_lowercase();
    let is_option =
        |word: &&str| word.starts_with('-') && word.trim_start_matches('-').starts_with(is_letter);
    usage.split([' ', '[', ']']).filter(is_option).map(str::to_string).collect()
}

/// The subcommands, as the help lists them.
fn subcommands() -> Vec<String> {
    let help = binary::run(&["--help"]).text();
    let listed = help.lines().filter_map(|line| line.strip_prefix("  "));
    listed.filter_map(|line| line.split(' ').next()).map(str::to_string).collect()
}

/// The options of a subcommand alone, as its help has them.
fn helped(name: &str) -> BTreeSet<String> {
    let help = binary::run(&[name, "--help"]).text();
    let lines = help.lines().filter_map(|line| line.strip_prefix("  "));
    let names = lines.filter_map(|line| line.split(' ').next());
    names.filter(|name| !["--json", "--help"].contains(name)).map(str::to_string).collect()
}
