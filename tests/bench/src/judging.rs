//! The check over any method of finding the shifted weights: refusals 16 to 19, the exact proof.

use crate::fields::{refuse_at, Refusal, Sheets, MOST};
use sheets::Profile;

/// What a check is given.
pub struct Given {
    pub claim: Vec<u8>,
    pub proof: Vec<u8>,
    pub limits: Vec<u8>,
}

/// A method of finding the sums of weights by point.
pub trait Method {
    fn new(sheets: &Sheets) -> Self;

    /// Some row has a slot at the point.
    fn holds(&self, sheets: &Sheets, point: &[u8]) -> bool;

    /// The row's weights p, q, r after the shift.
    fn shifted(&self, sheets: &Sheets, row: usize) -> [i64; 3];
}

/// The library's check, under the full profile.
pub fn by_library(given: &Given, output: &mut Vec<u8>) -> u64 {
    burmelox::check(&given.claim, &given.proof, &given.limits, Profile::FULL, output)
}

/// The check: answers the number of rows, or a refusal.
pub fn check<M: Method>(given: &Given, output: &mut [u8]) -> u64 {
    accept::<M>(given, output).unwrap_or_else(|refusal| refusal)
}

/// Judges all rows, then goes over them once more to write them.
fn accept<M: Method>(given: &Given, output: &mut [u8]) -> Result<u64, Refusal> {
    let sheets = Sheets::of(&given.claim, &given.proof, &given.limits, output.len())?;
    let method = M::new(&sheets);
    refuse_at(16, (0..places(&sheets)).find(|&place| misses(&sheets, &method, place)))?;
    judge(&sheets, &method)?;
    write(&sheets, &method, &given.proof, output);
    Ok(sheets.k as u64)
}

/// The exact proof in the output.
pub fn write<M: Method>(sheets: &Sheets, method: &M, proof: &[u8], output: &mut [u8]) {
    output[..proof.len()].copy_from_slice(proof);
    for row in 0..sheets.k {
        let place = sheets.weights_place(row);
        for (offset, weight) in [0, 4, 8].into_iter().zip(method.shifted(sheets, row)) {
            let bytes = (weight as i32).to_le_bytes();
            output[place + offset..][..4].copy_from_slice(&bytes);
        }
    }
}

/// How many places there may be whose target needs a slot: the terms, the constant, and the pure
/// power of each variable.
pub fn places(sheets: &Sheets) -> usize {
    sheets.t + 1 + sheets.n
}

/// No row has a slot for the target at the place.
pub fn misses<M: Method>(sheets: &Sheets, method: &M, place: usize) -> bool {
    let misses = |point: &[u8]| sheets.target(point) != 0 && !method.holds(sheets, point);
    match place.checked_sub(sheets.t) {
        None => misses(sheets.point(place)),
        Some(0) => misses(&[0; 8][..sheets.n]),
        Some(after) => sheets.pure_power(after - 1).is_some_and(|point| misses(&point[..sheets.n])),
    }
}

/// The first row beyond ±2^30, else the first with a negative end, else the first with too large
/// a cross weight, found in one pass.
fn judge<M: Method>(sheets: &Sheets, method: &M) -> Result<(), Refusal> {
    let (mut negative, mut crossed) = (None, None);
    for row in 0..sheets.k {
        match fault(method.shifted(sheets, row)) {
            Some(17) => return refuse_at(17, Some(row)),
            Some(18) => negative = negative.or(Some(row)),
            Some(_) => crossed = crossed.or(Some(row)),
            None => {}
        }
    }
    refuse_at(18, negative)?;
    refuse_at(19, crossed)
}

/// The number that refuses a row with the shifted weights, where one does.
pub fn fault([p, q, r]: [i64; 3]) -> Option<u32> {
    if [p, q, r].iter().any(|weight| weight.abs() > MOST) {
        Some(17)
    } else if p < 0 || q < 0 {
        Some(18)
    } else if r * r > 4 * p * q {
        Some(19)
    } else {
        None
    }
}
