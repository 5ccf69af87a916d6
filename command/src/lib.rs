//! The command `burmelox`: sheets as text, verdicts in words. It decides nothing itself: what is
//! accepted and what a sheet says comes from the proved library.
//!
//! One module a subcommand: `check`, `search`, `evaluate`, `encode`, `decode`, `explain`, `picture`,
//! `batch`. They are called by `arguments` with `near`, get their sheets from `held`, and tell in a `report`.
//!
//! - `files` reads and writes, `output` prints, `status` says how a run ends.
//! - `sheet` has the fields of sheets; `words` and `text` read them from a text, `fractions` and
//!   `natural` the weights in it.
//! - `library` has the library's texts and verdicts, `rules` the table of its refusals.
//! - `points_picture` and `curve_picture` are the pictures, with `axis` and `svg`.
//! - `list`, `results` and `progress` are those of a batch.
//! - `fault` names what a refusal blames and `breach` with which numbers, `balance` and `advice` say more of 16 to 19, and
//!   `telling` puts all that into words.

pub mod advice;
mod arguments;
mod axis;
pub mod balance;
mod batch;
mod breach;
mod check;
mod curve_picture;
mod decode;
pub mod encode;
mod evaluate;
mod explain;
mod fault;
mod files;
mod fractions;
pub mod held;
mod json;
pub mod library;
mod list;
mod natural;
mod near;
mod output;
mod picture;
mod points_picture;
mod profiles;
mod progress;
mod report;
mod results;
pub mod rules;
mod search;
pub mod sheet;
pub mod status;
mod svg;
mod telling;
mod text;
mod words;

use arguments::{Arguments, Subcommand};
use status::{trouble, Ending, Status, Trouble};
use std::ffi::OsString;

/// The subcommands, in the order of the help.
const SUBCOMMANDS: &[&Subcommand] = &[
    &check::SUBCOMMAND,
    &search::SUBCOMMAND,
    &evaluate::SUBCOMMAND,
    &encode::SUBCOMMAND,
    &decode::SUBCOMMAND,
    &explain::SUBCOMMAND,
    &picture::SUBCOMMAND,
    &batch::SUBCOMMAND,
];

/// Runs the command with the arguments after its name.
pub fn run(arguments: impl Iterator<Item = OsString>) -> Status {
    let ending = words(arguments).and_then(|words| dispatch(&words));
    ending.unwrap_or_else(|Trouble(words)| {
        output::complain(&format!("burmelox: {words}\n"));
        Status::Trouble
    })
}

fn words(arguments: impl Iterator<Item = OsString>) -> Result<Vec<String>, Trouble> {
    let word = |argument: OsString| {
        let told = |argument| Trouble(format!("{argument:?} is not UTF-8"));
        argument.into_string().map_err(told)
    };
    arguments.map(word).collect()
}

fn dispatch(words: &[String]) -> Ending {
    let Some((name, rest)) = words.split_first() else {
        return trouble("no subcommand; try `burmelox --help`");
    };
    match name.as_str() {
        "help" if !rest.is_empty() => call(&rest[0], &["--help".to_string()]),
        "--help" | "-h" | "help" => print(&help()),
        "--version" => print(&format!("burmelox {}\n", env!("CARGO_PKG_VERSION"))),
        _ => call(name, rest),
    }
}

fn print(text: &str) -> Ending {
    output::print(text.as_bytes())?;
    Ok(Status::Done)
}

fn call(name: &str, rest: &[String]) -> Ending {
    let Some(subcommand) = SUBCOMMANDS.iter().find(|subcommand| subcommand.name == name) else {
        let meant = near::meant(name, SUBCOMMANDS.iter().map(|subcommand| subcommand.name));
        return trouble(format!("there is no subcommand {name}{meant}; try `burmelox --help`"));
    };
    let arguments = Arguments::parse(subcommand, rest)?;
    if arguments.has("--help") {
        return print(&subcommand.help());
    }
    (subcommand.run)(&arguments)
}

fn help() -> String {
    let mut help = String::from(
        "usage: burmelox SUBCOMMAND ..\n\n\
         Checks floors under polynomials. Each verdict comes from the proved library.\n\n",
    );
    for subcommand in SUBCOMMANDS {
        help.push_str(&format!("  {:<10}{}\n", subcommand.name, subcommand.summary));
    }
    help + "\n`burmelox SUBCOMMAND --help` tells more, `burmelox --version` the version.\n\
            Status 0: accepted or done; 1: refused; 2: trouble.\n"
}
