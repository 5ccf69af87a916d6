//! Verdicts: accepted with the exact proof, or refused by a number of the table.

use std::fmt;

/// A refusal: its number in the table, and the first offending term or row, 0 where nothing is
/// indexed.
#[derive(Clone, Copy, Debug, PartialEq, Eq)]
pub struct Refusal {
    pub number: u32,
    pub index: usize,
}

/// An acceptance: the claim's floor, the proof's scale, and the exact proof as shifted weights
/// p, q, r for each row and as bytes.
#[derive(Clone, Debug, PartialEq, Eq)]
pub struct Accepted {
    pub floor: i32,
    pub scale: u32,
    pub weights: Vec<[i32; 3]>,
    pub bytes: Vec<u8>,
}

pub type Verdict = Result<Accepted, Refusal>;

impl Refusal {
    /// The refusal as the library answers it, with the sheet at fault.
    pub fn code(self) -> u64 {
        refusals::code(self.number, self.index)
    }
}

impl fmt::Display for Refusal {
    fn fmt(&self, f: &mut fmt::Formatter) -> fmt::Result {
        write!(f, "refused {} at {}", self.number, self.index)
    }
}

/// The shifted weights of each row where the proof is accepted, none where it is refused.
pub fn shifted_rows(verdict: &Verdict) -> &[[i32; 3]] {
    verdict.as_ref().map_or(&[], |accepted| &accepted.weights)
}

/// Refuses where the sheet as a whole is wrong.
pub fn refuse_if(number: u32, wrong: bool) -> Result<(), Refusal> {
    refuse_at(number, wrong.then_some(0))
}

/// Refuses where an offending term or row was found.
pub fn refuse_at(number: u32, found: Option<usize>) -> Result<(), Refusal> {
    match found {
        Some(index) => Err(Refusal { number, index }),
        None => Ok(()),
    }
}
