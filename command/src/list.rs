//! The list of a batch: the files of a check on each line.

use crate::files::{failed, STANDARD_INPUT};
use crate::status::{trouble, Trouble};
use std::fs::File;
use std::io::{self, stdin, BufRead, BufReader, Read};

/// A list that is read line by line.
pub struct List {
    name: String,
    source: BufReader<Box<dyn Read + Send>>,
    length: Option<u64>,
    read: u64,
}

/// A line of a list that is no comment, without its end, and how much of the list it ends.
pub struct Entry {
    pub line: Vec<u8>,
    pub end: u64,
}

/// The files that a line names.
pub struct Named<'a> {
    pub claim: &'a str,
    pub proof: Option<&'a str>,
    pub limits: Option<&'a str>,
}

impl List {
    pub fn open(name: &str) -> Result<List, Trouble> {
        if name == STANDARD_INPUT {
            let source = BufReader::new(Box::new(stdin()) as Box<dyn Read + Send>);
            return Ok(List { name: "standard input".to_string(), source, length: None, read: 0 });
        }
        let file = File::open(name).map_err(|error| failed(name, &error))?;
        let found = file.metadata().map_err(|error| failed(name, &error))?;
        if found.is_dir() {
            return trouble(format!("{name}: Is a directory"));
        }
        let length = found.is_file().then_some(found.len());
        let source = BufReader::new(Box::new(file) as Box<dyn Read + Send>);
        Ok(List { name: name.to_string(), source, length, read: 0 })
    }

    pub fn name(&self) -> &str {
        &self.name
    }

    /// The length in bytes, where it is known.
    pub fn length(&self) -> Option<u64> {
        self.length
    }

    /// The next line that is neither blank nor a comment.
    pub fn next(&mut self) -> io::Result<Option<Entry>> {
        loop {
            let mut line = Vec::new();
            let read = self.source.read_until(b'\n', &mut line)?;
            if read == 0 {
                return Ok(None);
            }
            self.read += read as u64;
            let line = line.strip_suffix(b"\n").unwrap_or(&line);
            let line = line.strip_suffix(b"\r").unwrap_or(line);
            let first = line.trim_ascii_start().first();
            if first.is_some_and(|&first| first != b'#') {
                return Ok(Some(Entry { line: line.to_vec(), end: self.read }));
            }
        }
    }
}

impl Entry {
    /// The files on the line: with tabs between them, or spaces where there is no tab.
    pub fn named(&self) -> Result<Named<'_>, Trouble> {
        let Ok(line) = std::str::from_utf8(&self.line) else {
            return trouble("the line is not UTF-8");
        };
        let files: Vec<&str> = if line.contains('\t') {
            line.split('\t').map(str::trim).collect()
        } else {
            line.split_whitespace().collect()
        };
        let given =
            |index: usize| files.get(index).copied().filter(|file| !["", "-"].contains(file));
        match (given(0), files.len()) {
            (Some(claim), 1..=3) => Ok(Named { claim, proof: given(1), limits: given(2) }),
            (None, 1..=3) => trouble("the line names no claim"),
            _ => trouble("the line names more than claim, proof and limits"),
        }
    }
}
