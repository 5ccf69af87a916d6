//! An independent checker of floors, written from documents 01 and 02 alone, with big integers.
//!
//! Sheets are parsed into structures, targets and slots are kept in maps by point, and every
//! number that is computed is an [`Integer`]. One module a section: `claim`, `proof`, `check`
//! (targets, sharing, judging), `evaluate`, `text` (what the program prints). Of document 02,
//! note 1 is `search`, note 4 `limits`, note 5 `fractions`, note 6 `page`, note 7 `profile`, and
//! the mask of note 3 is in `claim`. `listing` has the sheets as text.

mod check;
mod claim;
mod evaluate;
mod fractions;
mod integer;
mod limits;
mod listing;
mod page;
mod profile;
mod proof;
mod search;
mod text;
mod verdict;

pub use check::{check, check_unlimited};
pub use evaluate::evaluate;
pub use fractions::{sides, Sides};
pub use integer::Integer;
pub use listing::{claim_text, limits_text, profile_text, proof_text};
pub use page::{check_page, Paged};
pub use search::{search, Found};
pub use text::{printed, text, verdict};
pub use verdict::{Accepted, Refusal, Verdict};

/// A point: its exponents, one for each variable. Points are ordered by the first variable first.
type Point = Vec<u8>;

/// The greatest floor and the greatest coefficient, under every profile.
const MOST: u32 = 1 << 30;

/// A floor, a coefficient or a weight read from a sheet is beyond ± the greatest.
fn beyond(number: i32, most: u32) -> bool {
    number.unsigned_abs() > most
}

/// The signed 32-bit number in four bytes.
fn word(bytes: &[u8]) -> i32 {
    i32::from_le_bytes(bytes.try_into().expect("a word has four bytes"))
}

/// The signed 32-bit numbers that stand one after another in `bytes`.
fn words(bytes: &[u8]) -> Vec<i32> {
    bytes.chunks_exact(4).map(word).collect()
}

/// The points of `n` variables that stand one after another in `bytes`.
fn points(bytes: &[u8], n: usize) -> Vec<Point> {
    bytes.chunks_exact(n).map(<[u8]>::to_vec).collect()
}

/// A point has an exponent over the greatest.
fn too_high(point: &Point, most: u32) -> bool {
    point.iter().any(|&exponent| u32::from(exponent) > most)
}
