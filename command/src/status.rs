//! How a run ends.

use std::process::ExitCode;

/// The exit status of a run that came to its end.
#[derive(Clone, Copy, Debug, PartialEq, Eq, PartialOrd, Ord)]
pub enum Status {
    /// Accepted, or done.
    Done = 0,
    /// Refused by the library.
    Refused = 1,
    /// Trouble with usage, a file or a text.
    Trouble = 2,
}

impl From<Status> for ExitCode {
    fn from(status: Status) -> ExitCode {
        ExitCode::from(status as u8)
    }
}

/// What kept a run from its end, in words for standard error.
#[derive(Debug, PartialEq, Eq)]
pub struct Trouble(pub String);

pub type Ending = Result<Status, Trouble>;

/// Trouble in words.
pub fn trouble<T>(words: impl Into<String>) -> Result<T, Trouble> {
    Err(Trouble(words.into()))
}
