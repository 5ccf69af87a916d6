//! Files: read whole up to a size, and written whole or not at all.

use crate::output::reason;
use crate::status::{trouble, Trouble};
use std::fs::{self, File};
use std::io::{stdin, Error, Read, Write};
use std::path::{Path, PathBuf};

/// A file that is read has at most so many bytes.
const MOST: u64 = 16 << 20;

/// No two sheets in bytes have more, so that one call reads them.
const USUAL: usize = 8192;

/// The name that stands for standard input.
pub const STANDARD_INPUT: &str = "-";

/// Reads the files of one run, and standard input once at most.
#[derive(Default)]
pub struct Inputs {
    standard_taken: bool,
}

impl Inputs {
    pub fn read(&mut self, name: &str) -> Result<Vec<u8>, Trouble> {
        if name != STANDARD_INPUT {
            return read(name);
        }
        if self.standard_taken {
            return trouble("- stands for standard input, which can be read only once");
        }
        self.standard_taken = true;
        read_all(stdin().lock(), "standard input")
    }
}

/// The bytes of a file.
fn read(name: &str) -> Result<Vec<u8>, Trouble> {
    let file = File::open(name).map_err(|error| failed(name, &error))?;
    read_all(file, name)
}

fn read_all(source: impl Read, name: &str) -> Result<Vec<u8>, Trouble> {
    let mut bytes = Vec::with_capacity(USUAL);
    let read = source.take(MOST + 1).read_to_end(&mut bytes);
    read.map_err(|error| failed(name, &error))?;
    if bytes.len() as u64 > MOST {
        return trouble(format!("{name}: longer than 16 MiB, which no sheet is"));
    }
    Ok(bytes)
}

/// Trouble with a file.
pub fn failed(name: &str, error: &Error) -> Trouble {
    Trouble(format!("{name}: {}", reason(error)))
}

/// Trouble with a file that is to be written.
pub fn unwritten(name: &str, error: &Error) -> Trouble {
    Trouble(format!("cannot write {name}: {}", reason(error)))
}

/// A file that is written, and takes its name only when all is: until then it stands under a
/// temporary name beside it, which goes where it is dropped. What is no plain file, as a device, is
/// written when it would take its name.
pub struct Staged {
    name: String,
    target: PathBuf,
    waiting: Waiting,
}

enum Waiting {
    Temporary(PathBuf),
    Bytes(Vec<u8>),
    Placed,
}

impl Staged {
    pub fn new(name: &str, bytes: &[u8]) -> Result<Staged, Trouble> {
        is_target(name)?;
        let target = fs::canonicalize(name).unwrap_or_else(|_| PathBuf::from(name));
        let waiting = match fs::metadata(&target) {
            Ok(found) if found.is_dir() => {
                return trouble(format!("cannot write {name}: Is a directory"))
            }
            Ok(found) if !found.is_file() => Waiting::Bytes(bytes.to_vec()),
            _ => Waiting::Temporary(write_beside(&target, bytes).map_err(|e| unwritten(name, &e))?),
        };
        Ok(Staged { name: name.to_string(), target, waiting })
    }

    /// Gives the file its name.
    pub fn place(mut self) -> Result<(), Trouble> {
        let placed = match &self.waiting {
            Waiting::Temporary(path) => fs::rename(path, &self.target),
            Waiting::Bytes(bytes) => fs::write(&self.target, bytes),
            Waiting::Placed => Ok(()),
        };
        placed.map_err(|error| unwritten(&self.name, &error))?;
        self.waiting = Waiting::Placed;
        Ok(())
    }
}

impl Drop for Staged {
    fn drop(&mut self) {
        if let Waiting::Temporary(path) = &self.waiting {
            let _ = fs::remove_file(path);
        }
    }
}

/// A file can be written under this name.
pub fn is_target(name: &str) -> Result<(), Trouble> {
    if name == STANDARD_INPUT {
        return trouble("- is no file to write to: name one");
    }
    Ok(())
}

/// Writes the bytes to a new file beside the target, and removes it where that fails.
fn write_beside(target: &Path, bytes: &[u8]) -> Result<PathBuf, Error> {
    let name = target.file_name().ok_or(Error::other("no name of a file"))?;
    let temporary = format!(".{}.burmelox-{}", name.to_string_lossy(), std::process::id());
    let path = target.with_file_name(temporary);
    let mut file = File::create_new(&path)?;
    let written = file.write_all(bytes).and_then(|()| file.sync_all());
    if written.is_err() {
        let _ = fs::remove_file(&path);
    }
    written.map(|()| path)
}
