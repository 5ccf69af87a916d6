//! The sheets and the profile as text, one fact a line. Each goes through its own checks under the
//! full profile, then 30 asks whether the text has room.

use crate::proof::{self, Row};
use crate::verdict::{refuse_if, Refusal};
use crate::{claim, limits, profile};
use site::Profile;
use std::fmt::Display;

/// A text, or the refusal of the sheet or of the buffer.
type Listing = Result<String, Refusal>;

/// The text of a claim that passes 1 to 7, for a buffer of `room` bytes.
pub fn claim_text(sheet: &[u8], room: usize) -> Listing {
    let claim = claim::read(sheet, Profile::FULL)?;
    let mut lines = vec![
        "claim".to_string(),
        format!("variables {}", claim.variables),
        format!("mask {}", claim.mask),
        format!("floor {}", claim.floor),
    ];
    for (index, (point, coefficient)) in claim.terms.iter().enumerate() {
        let exponents = spaced(point);
        lines.push(format!("term {index} coefficient {coefficient} exponents {exponents}"));
    }
    fitting(&lines, room)
}

/// The text of a proof that passes 8 to 10 and 12 to 15 beside a claim of as many variables as it
/// says itself, for a buffer of `room` bytes.
pub fn proof_text(sheet: &[u8], room: usize) -> Listing {
    refuse_if(8, sheet.len() < 8)?;
    let n = own_variables(sheet, 9)?;
    let (k, scale) = proof::header(sheet, n, Profile::FULL)?;
    let rows = proof::rows(sheet, n, k, Profile::FULL)?;
    let mut lines = vec!["proof".to_string(), format!("variables {n}"), format!("scale {scale}")];
    lines.extend(rows.iter().enumerate().map(|(index, row)| format!("row {index} {}", facts(row))));
    fitting(&lines, room)
}

/// What a row's line says behind its index.
fn facts(row: &Row) -> String {
    let (v, w, [p, q, r]) = (spaced(&row.v), spaced(&row.w), row.weights);
    if row.is_lone() {
        format!("lone v {v} p {p}")
    } else {
        format!("pair v {v} w {w} p {p} q {q} r {r}")
    }
}

/// The text of limits that pass 24 and 25 beside a claim of as many variables as they say
/// themselves, for a buffer of `room` bytes.
pub fn limits_text(sheet: &[u8], room: usize) -> Listing {
    let n = own_variables(sheet, 24)?;
    let mut lines = vec!["limits".to_string(), format!("variables {n}")];
    for (variable, limit) in limits::read(sheet, n)?.limited() {
        let limits::Limit { power, limit, multiplier } = limit;
        lines.push(format!(
            "variable {variable} power {power} limit {limit} multiplier {multiplier}"
        ));
    }
    fitting(&lines, room)
}

/// The text of a profile that passes 27, for a buffer of `room` bytes.
pub fn profile_text(profile: Profile, room: usize) -> Listing {
    profile::check(profile)?;
    let Profile { exponent, weight, rows } = profile;
    let lines = [
        "profile".to_string(),
        format!("exponent {exponent}"),
        format!("weight {weight}"),
        format!("rows {rows}"),
    ];
    fitting(&lines, room)
}

/// The number of variables that a sheet says itself, refused by the number unless it is 1 to 8.
fn own_variables(sheet: &[u8], number: u32) -> Result<usize, Refusal> {
    let n = sheet.first().copied().unwrap_or(0).into();
    refuse_if(number, !(1..=8).contains(&n))?;
    Ok(n)
}

/// Numbers with a space between two.
fn spaced<T: Display>(numbers: &[T]) -> String {
    numbers.iter().map(T::to_string).collect::<Vec<_>>().join(" ")
}

/// The lines, each ended by a line feed, where they have room.
fn fitting(lines: &[String], room: usize) -> Listing {
    let text: String = lines.iter().map(|line| format!("{line}\n")).collect();
    refuse_if(30, text.len() > room)?;
    Ok(text)
}
