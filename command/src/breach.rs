//! Which of the possibilities of a rule a refusal means, with the numbers.

use crate::sheet::{Claim, Proof};
use burmelox::Profile;

/// The greatest scale, and how far a floor goes to either side.
const GREATEST_SCALE: u32 = 1 << 20;
const GREATEST_FLOOR: u64 = 1 << 30;

/// The greatest exponent of a term, against the profile's.
pub fn of_term(claim: &[u8], index: usize, profile: Profile) -> Option<String> {
    let claim = Claim::read(claim)?;
    over("exponent", claim.terms.get(index)?.point.iter().copied(), profile.exponent)
}

/// The greatest exponent of a row by 12, its greatest weight by 15, against the profile's.
pub fn of_row(proof: &[u8], index: usize, number: u32, profile: Profile) -> Option<String> {
    let proof = Proof::read(proof)?;
    let row = proof.rows.get(index)?;
    if number == 12 {
        return over("exponent", row.v.iter().chain(&row.w).copied(), profile.exponent);
    }
    over("weight", row.weights.into_iter().map(i32::unsigned_abs), profile.weight)
}

/// The greatest number and what is allowed.
fn over<T: Into<u32>>(
    what: &str,
    numbers: impl Iterator<Item = T>,
    allowed: u32,
) -> Option<String> {
    let greatest = numbers.map(T::into).max()?;
    Some(format!("{what} {greatest}, the profile allows {allowed}"))
}

/// What is wrong in the header of a proof, by the claim's n where there is a claim.
pub fn of_proof(proof: &[u8], n: Option<u8>, profile: Profile) -> Option<String> {
    let header: [u8; 8] = proof.get(..8)?.try_into().ok()?;
    let [_, unused, low, high, scale @ ..] = header;
    let (rows, scale) = (u16::from_le_bytes([low, high]), u32::from_le_bytes(scale));
    if let Some(words) = of_count(proof, n) {
        Some(words)
    } else if u32::from(rows) > profile.rows {
        Some(format!("rows {rows}, the profile allows {}", profile.rows))
    } else if unused > 0 {
        Some(format!("byte 1 is {unused}, not 0"))
    } else {
        let is_wrong = !(1..=GREATEST_SCALE).contains(&scale);
        is_wrong.then(|| format!("scale {scale}, not 1 to {GREATEST_SCALE}"))
    }
}

/// The number of variables that a sheet begins with, where it is not the claim's or out of range.
pub fn of_count(sheet: &[u8], n: Option<u8>) -> Option<String> {
    let own = *sheet.first()?;
    match n {
        Some(n) if n != own => Some(format!("variables {own}, the claim has {n}")),
        None if !(1..=8).contains(&own) => Some(format!("variables {own}, not 1 to 8")),
        _ => None,
    }
}

/// What is wrong with the range of a search.
pub fn of_range((lo, hi): (i64, i64)) -> Option<String> {
    let ends = [("--from", lo), ("--to", hi)];
    let beyond = ends.into_iter().find(|(_, floor)| floor.unsigned_abs() > GREATEST_FLOOR);
    if let Some((name, floor)) = beyond {
        return Some(format!("{name} {floor} is beyond ±2^30"));
    }
    (lo > hi).then(|| format!("--from {lo} is over --to {hi}"))
}
