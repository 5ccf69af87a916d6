//! The arguments of a subcommand, and its help.

use crate::near::meant;
use crate::status::{trouble, Ending, Trouble};
use std::ops::RangeInclusive;

/// A subcommand: how it is called, what it does, and what does it.
pub struct Subcommand {
    pub name: &'static str,
    /// The operands as the usage line has them.
    pub operands: &'static str,
    /// How many operands there are.
    pub count: RangeInclusive<usize>,
    pub summary: &'static str,
    /// More about it, in whole lines.
    pub about: &'static str,
    pub options: &'static [Opt],
    pub run: fn(&Arguments) -> Ending,
}

/// An option, with what its value is called; empty where it takes none.
pub struct Opt {
    pub name: &'static str,
    pub value: &'static str,
    pub meaning: &'static str,
}

impl Opt {
    pub const fn new(name: &'static str, value: &'static str, meaning: &'static str) -> Opt {
        Opt { name, value, meaning }
    }
}

/// The options of every subcommand.
const COMMON: [Opt; 2] = [
    Opt::new("--json", "", "print one JSON object in place of lines"),
    Opt::new("--help", "", "print this help"),
];

/// The options that several subcommands have.
pub const LIMITS: Opt =
    Opt::new("--limits", "FILE", "the limits sheet; without it none is limited");
pub const PROFILE: Opt =
    Opt::new("--profile", "E,W,R", "the greatest exponent, the greatest weight, the most rows");
pub const EXACT: Opt = Opt::new("-o", "FILE", "write the exact proof, in bytes");

impl Subcommand {
    /// The options, those of every subcommand last.
    fn options(&self) -> impl Iterator<Item = &Opt> {
        self.options.iter().chain(&COMMON)
    }

    pub fn help(&self) -> String {
        let Subcommand { name, operands, summary, about, .. } = self;
        let mut help =
            format!("usage: burmelox {name} {operands} [OPTION ..]\n\n{summary}\n{about}\n");
        for Opt { name, value, meaning } in self.options() {
            let called = format!("{name} {value}");
            help.push_str(&format!("  {called:<18}{meaning}\n"));
        }
        help + "\nStatus 0: accepted or done; 1: refused; 2: trouble.\n"
    }

    /// Trouble with how it was called.
    fn misused<T>(&self, words: impl std::fmt::Display) -> Result<T, Trouble> {
        trouble(format!("{}: {words}; try `burmelox {} --help`", self.name, self.name))
    }
}

/// What a subcommand is called with.
#[derive(Default)]
pub struct Arguments {
    pub operands: Vec<String>,
    options: Vec<(&'static str, String)>,
}

impl Arguments {
    /// The arguments in the words after the subcommand's name; after `--` all are operands.
    pub fn parse(subcommand: &Subcommand, words: &[String]) -> Result<Arguments, Trouble> {
        let mut arguments = Arguments::default();
        let mut words = words.iter();
        while let Some(word) = words.next() {
            if word == "--" {
                arguments.operands.extend(words.by_ref().cloned());
            } else if is_operand(word) {
                arguments.operands.push(word.clone());
            } else {
                arguments.take_option(subcommand, word, &mut words)?;
            }
        }
        let count = arguments.operands.len();
        if !arguments.has("--help") && !subcommand.count.contains(&count) {
            let found = if count == 1 { "is one".into() } else { format!("are {count}") };
            return subcommand
                .misused(format!("expected {}, but there {found}", subcommand.operands));
        }
        Ok(arguments)
    }

    fn take_option<'a>(
        &mut self,
        subcommand: &Subcommand,
        word: &str,
        words: &mut impl Iterator<Item = &'a String>,
    ) -> Result<(), Trouble> {
        let (name, attached) = match word.split_once('=') {
            Some((name, value)) => (name, Some(value.to_string())),
            None => (word, None),
        };
        let Some(option) = subcommand.options().find(|option| option.name == name) else {
            let meant = meant(name, subcommand.options().map(|option| option.name));
            return subcommand.misused(format!("there is no option {name}{meant}"));
        };
        let value = match (option.value, attached) {
            ("", None) => String::new(),
            ("", Some(_)) => return subcommand.misused(format!("{name} takes no value")),
            (_, Some(value)) => value,
            (called, None) => match words.next() {
                Some(value) => value.clone(),
                None => return subcommand.misused(format!("{name} needs {called} after it")),
            },
        };
        if option.value.contains(',') && value.ends_with(',') {
            return subcommand.misused(format!("{name} takes {} without spaces", option.value));
        }
        if self.has(name) {
            return subcommand.misused(format!("{name} is there twice"));
        }
        self.options.push((option.name, value));
        Ok(())
    }

    pub fn has(&self, name: &str) -> bool {
        self.value(name).is_some()
    }

    /// The value of an option, where it is there.
    pub fn value(&self, name: &str) -> Option<&str> {
        let found = self.options.iter().find(|(other, _)| *other == name);
        found.map(|(_, value)| value.as_str())
    }

    /// The whole number after an option, where that is there.
    pub fn number<T: std::str::FromStr>(&self, name: &str) -> Result<Option<T>, Trouble> {
        let Some(value) = self.value(name) else { return Ok(None) };
        match value.parse() {
            Ok(number) => Ok(Some(number)),
            Err(_) => trouble(format!("{name}: expected a whole number, found {value:?}")),
        }
    }
}

/// A file, standard input or a number, which may be negative.
fn is_operand(word: &str) -> bool {
    let is_number = |rest: &str| rest.starts_with(|first: char| first.is_ascii_digit());
    word.strip_prefix('-').is_none_or(|rest| rest.is_empty() || is_number(rest))
}

#[cfg(test)]
mod tests {
    use super::*;
    use crate::status::Status;

    const EXAMPLE: Subcommand = Subcommand {
        name: "example",
        operands: "FILE X ..",
        count: 1..=3,
        summary: "",
        about: "",
        options: &[EXACT, PROFILE],
        run: |_| Ok(Status::Done),
    };

    fn parsed(words: &str) -> Result<Arguments, Trouble> {
        let words: Vec<String> = words.split(' ').map(str::to_string).collect();
        Arguments::parse(&EXAMPLE, &words)
    }

    #[test]
    fn operands_and_options() {
        let arguments = parsed("file -3 -o - --json").ok().expect("all is right");
        assert_eq!(arguments.operands, ["file", "-3"]);
        assert_eq!((arguments.value("-o"), arguments.has("--json")), (Some("-"), true));
        assert_eq!(
            parsed("-- --json -").ok().map(|found| found.operands),
            Some(vec!["--json".into(), "-".into()])
        );
        assert_eq!(
            parsed("-o=x -").ok().and_then(|found| found.value("-o").map(String::from)),
            Some("x".into())
        );
    }

    #[test]
    fn misuse_is_told() {
        let told = |words| parsed(words).err().map(|Trouble(words)| words).unwrap_or_default();
        assert_eq!(
            told("file --page"),
            "example: there is no option --page; try `burmelox example --help`"
        );
        assert!(told("file --jsn").contains("no option --jsn (did you mean --json?); try"));
        assert!(told("file --profile 1, 2, 3").contains("--profile takes E,W,R without spaces"));
        assert!(told("file -o").contains("-o needs FILE after it"));
        assert!(told("file -o a -o b").contains("-o is there twice"));
        assert!(told("file --json=1").contains("--json takes no value"));
        assert!(told("--json").contains("expected FILE X .., but there are 0"));
    }
}
