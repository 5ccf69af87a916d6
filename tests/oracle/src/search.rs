//! The search for the highest floor that the rows carry: refusals 27, 1 to 15 with 24 and 25 among
//! them, 22 and 23.

use crate::check::Sheets;
use crate::verdict::{refuse_if, Accepted, Refusal};
use crate::{Integer, MOST};
use site::Profile;

/// A floor that was found: the acceptance of the claim with it, and the number of floors tried.
#[derive(Clone, Debug, PartialEq, Eq)]
pub struct Found {
    pub accepted: Accepted,
    pub tried: u32,
}

/// The highest floor from `lo` to `hi` whose check is accepted, with limits, a profile and an
/// output of `room` bytes. Every floor is tried from `hi` down; the claim's own floor has to be
/// valid and is not used.
pub fn search(
    claim: &[u8],
    proof: &[u8],
    limits: &[u8],
    profile: Profile,
    room: usize,
    lo: i64,
    hi: i64,
) -> Result<Found, Refusal> {
    let mut sheets = Sheets::read(claim, proof, Some(limits), profile, room)?;
    refuse_if(22, is_wrong(lo, hi))?;
    for (tried, floor) in (1..).zip((lo..=hi).rev()) {
        sheets.claim.floor = floor as i32;
        if let Ok(accepted) = sheets.judge() {
            return Ok(Found { accepted, tried });
        }
    }
    Err(Refusal { number: 23, index: 0 })
}

/// The floors are in the wrong order, beyond ±2^30 or too many.
fn is_wrong(lo: i64, hi: i64) -> bool {
    let (lo, hi) = (Integer::from(lo), Integer::from(hi));
    let beyond = |floor: &Integer| floor.abs() > Integer::from(MOST);
    lo > hi || beyond(&lo) || beyond(&hi) || &hi - &lo > Integer::from(4095)
}
