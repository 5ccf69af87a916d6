//! The results of a batch, one a line, as they are written and as they are found again.

use crate::files::{failed, is_target, unwritten};
use crate::held::Sheets;
use crate::json::{quoted, Object};
use crate::library;
use crate::list::{Entry, List};
use crate::output;
use crate::rules::Refusal;
use crate::status::{trouble, Status, Trouble};
use crate::telling::{accepted_fields, refused_fields};
use burmelox::Profile;
use std::fs::{File, OpenOptions};
use std::io::{BufRead, BufReader, Error, IsTerminal, Write};

/// What a line of the list comes to.
pub enum Outcome {
    Accepted(String),
    Refused(Refusal),
    Trouble(String),
}

impl Outcome {
    /// The check of a line of the list.
    pub fn of(entry: &Entry, profile: Profile) -> Outcome {
        match checked(entry, profile) {
            Ok(outcome) => outcome,
            Err(Trouble(words)) => Outcome::Trouble(one_line(&words)),
        }
    }
}

fn checked(entry: &Entry, profile: Profile) -> Result<Outcome, Trouble> {
    let named = entry.named()?;
    let sheets = Sheets::read(named.claim, named.proof, named.limits)?;
    let (claim, proof) = (&sheets.claim.bytes, &sheets.proof.bytes);
    let verdict = library::check(claim, proof, &sheets.limits, profile);
    Ok(match verdict.exact {
        Ok(_) => Outcome::Accepted(verdict.line),
        Err(refusal) => Outcome::Refused(refusal),
    })
}

/// Words without line ends and tabs, which part results and their fields.
fn one_line(words: &str) -> String {
    words.chars().map(|one| if one.is_control() { '?' } else { one }).collect()
}

/// How results are written.
#[derive(Clone, Copy, PartialEq, Eq)]
pub enum Form {
    Lines,
    Json,
}

/// The first word of each verdict, by the status that it stands for.
const VERDICTS: [(Status, &str); 3] =
    [(Status::Done, "accepted"), (Status::Refused, "refused"), (Status::Trouble, "trouble")];

impl Form {
    /// The line of a result.
    fn line(self, entry: &Entry, outcome: &Outcome) -> Vec<u8> {
        let start = match self {
            Form::Lines => plain(outcome),
            Form::Json => object(outcome).unfinished(),
        };
        [start.as_bytes(), &self.tail(entry), b"\n"].concat()
    }

    /// How a result ends, by its line of the list.
    fn tail(self, entry: &Entry) -> Vec<u8> {
        match self {
            Form::Lines => [b"\t", &entry.line[..]].concat(),
            Form::Json => {
                let line = quoted(&String::from_utf8_lossy(&entry.line));
                format!(",\"list\":{line}}}").into_bytes()
            }
        }
    }

    /// The status of a result that is the one of a line of the list.
    fn status(self, result: &[u8], entry: &Entry) -> Option<Status> {
        let start = result.strip_suffix(&self.tail(entry)[..])?;
        let start = match self {
            Form::Lines if start.contains(&b'\t') => return None,
            Form::Lines => start,
            Form::Json => start.strip_prefix(b"{\"verdict\":\"")?,
        };
        let of = |&(_, word): &(Status, &str)| start.starts_with(word.as_bytes());
        VERDICTS.into_iter().find(of).map(|(status, _)| status)
    }
}

fn plain(outcome: &Outcome) -> String {
    match outcome {
        Outcome::Accepted(line) => line.clone(),
        Outcome::Refused(refusal) => refusal.to_string(),
        Outcome::Trouble(words) => format!("trouble {words}"),
    }
}

/// The object of a result, without its line of the list.
fn object(outcome: &Outcome) -> Object {
    let mut object = Object::default();
    match outcome {
        Outcome::Accepted(line) => accepted_fields(&mut object, line),
        Outcome::Refused(refusal) => refused_fields(&mut object, *refusal),
        Outcome::Trouble(words) => {
            object.text("verdict", "trouble");
            object.text("words", words);
        }
    }
    object
}

/// Where results go, and how many there are of each verdict.
pub struct Results {
    name: String,
    file: File,
    form: Form,
    counts: [u64; 3],
    kept: u64,
}

impl Results {
    /// Results on standard output.
    pub fn printed(form: Form) -> Result<Results, Trouble> {
        let name = "standard output";
        let file = output::standard()?.try_clone().map_err(|error| failed(name, &error))?;
        Ok(Results::to(name, file, form))
    }

    /// Results in a file that has none yet.
    pub fn new(name: &str, form: Form) -> Result<Results, Trouble> {
        let file = opened(name)?;
        let found = file.metadata().map_err(|error| failed(name, &error))?;
        if found.is_file() && found.len() > 0 {
            return trouble(format!(
                "{name}: there is something in it already: go on after it by --resume, or remove it"
            ));
        }
        Ok(Results::to(name, file, form))
    }

    /// Results in a file that may have the first ones; they are taken off the list.
    pub fn resumed(name: &str, form: Form, list: &mut List) -> Result<Results, Trouble> {
        let file = opened(name)?;
        let mut results = Results::to(name, file, form);
        let whole = results.keep(list)?;
        results.file.set_len(whole).map_err(|error| failed(name, &error))?;
        Ok(results)
    }

    fn to(name: &str, file: File, form: Form) -> Results {
        Results { name: name.to_string(), file, form, counts: [0; 3], kept: 0 }
    }

    /// Reads the whole lines that are there against the list, and says how long they are together.
    fn keep(&mut self, list: &mut List) -> Result<u64, Trouble> {
        let (name, list_name) = (self.name.clone(), list.name().to_string());
        let failing = |error: Error| failed(&name, &error);
        let mut source = BufReader::new(self.file.try_clone().map_err(failing)?);
        let (mut line, mut length) = (Vec::new(), 0);
        loop {
            line.clear();
            source.read_until(b'\n', &mut line).map_err(failing)?;
            let Some(result) = line.strip_suffix(b"\n") else { return Ok(length) };
            let entry = list.next().map_err(|error| failed(&list_name, &error))?;
            let status = entry.and_then(|entry| self.form.status(result, &entry));
            let Some(status) = status else {
                let place = self.kept + 1;
                return trouble(format!(
                    "{name}:{place}: not the result of the next line of {list_name}"
                ));
            };
            self.counts[status as usize] += 1;
            self.kept += 1;
            length += line.len() as u64;
        }
    }

    /// Writes a result.
    pub fn add(&mut self, entry: &Entry, outcome: &Outcome) -> Result<(), Trouble> {
        let line = self.form.line(entry, outcome);
        self.file.write_all(&line).map_err(|error| unwritten(&self.name, &error))?;
        let status = match outcome {
            Outcome::Accepted(_) => Status::Done,
            Outcome::Refused(_) => Status::Refused,
            Outcome::Trouble(_) => Status::Trouble,
        };
        self.counts[status as usize] += 1;
        Ok(())
    }

    pub fn is_on_terminal(&self) -> bool {
        self.file.is_terminal()
    }

    /// The worst of all results.
    pub fn status(&self) -> Status {
        let met = VERDICTS.into_iter().rev().find(|(status, _)| self.counts[*status as usize] > 0);
        met.map_or(Status::Done, |(status, _)| status)
    }

    /// How many there are of each verdict, and how fast they came.
    pub fn summary(&self, seconds: f64) -> String {
        let [accepted, refused, trouble] = self.counts;
        let checked = accepted + refused + trouble - self.kept;
        let kept = if self.kept > 0 { format!(", kept {}", self.kept) } else { String::new() };
        let speed = checked as f64 / seconds.max(1e-9);
        format!(
            "accepted {accepted}, refused {refused}, trouble {trouble}{kept}; \
             {checked} in {seconds:.1} s, {speed:.0} sheets a second\n"
        )
    }
}

/// Opens a file to append to it and to read what is there.
fn opened(name: &str) -> Result<File, Trouble> {
    is_target(name)?;
    let file = OpenOptions::new().read(true).append(true).create(true).open(name);
    file.map_err(|error| unwritten(name, &error))
}
