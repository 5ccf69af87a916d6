//! Profiles, note 7 of document 02: those out of range, and sheets under tight ones with what a
//! check says of them.

use crate::worked::{lone_proof, square_case, square_claim};
use crate::{Case, Claim, Limit, Limits, Profile, Proof, MOST};

/// Sheets under a profile, and what a check of them comes to: an acceptance, or the number and the
/// index of a refusal.
pub struct Profiled {
    pub name: &'static str,
    pub case: Case,
    pub outcome: Result<(), (u32, usize)>,
}

/// Profiles out of range, each in one number: by one, with low bits that are in range, and by as
/// much as there can be.
pub const OUT_OF_RANGE: [Profile; 10] = [
    exponent(121),
    exponent(1 << 8),
    exponent(u32::MAX),
    weight(0),
    weight((1 << 30) + 1),
    weight((1 << 31) + 1),
    weight(u32::MAX),
    rows(257),
    rows(1 << 16),
    rows(u32::MAX),
];

/// The full profile with another exponent.
const fn exponent(exponent: u32) -> Profile {
    Profile { exponent, ..Profile::FULL }
}

/// The full profile with another weight.
const fn weight(weight: u32) -> Profile {
    Profile { weight, ..Profile::FULL }
}

/// The full profile with other rows.
const fn rows(rows: u32) -> Profile {
    Profile { rows, ..Profile::FULL }
}

/// C, whose p becomes 2, with a proposal that weight 1 lets pass.
fn light_c() -> Case {
    Case::new(&square_claim(-1, -2), &Proof::new(1, &[([0], [2], [1, 1, -1])]))
}

/// A constant with a floor of its own and no row.
fn constant(coefficient: i32) -> Case {
    Case::new(&Claim::new(coefficient, &[([0], coefficient)]), &Proof::new::<1>(1, &[]))
}

/// No terms and the floor −m, within ±1 by the square: the limit brings the constant to 0 and x² to
/// m, whatever the profile is.
fn limited(multiplier: u16, proof: &Proof) -> Case {
    let claim = Claim::new::<1>(-i32::from(multiplier), &[]);
    Case::new(&claim, proof).limited(&Limits::new(&[Limit::new(2, 1, multiplier.into())]))
}

/// Every named case.
pub fn cases() -> Vec<Profiled> {
    let profiled =
        |name, case: Case, profile, outcome| Profiled { name, case: case.under(profile), outcome };
    let needed = Profile { exponent: 2, weight: 2, rows: 1 };
    let no_rows = Proof::new::<1>(1, &[]);
    let (held, unheld) = (limited(1, &lone_proof([2])), limited(1, &no_rows));
    vec![
        profiled("Square, full", square_case(), Profile::FULL, Ok(())),
        profiled("Square, as it needs", square_case(), needed, Ok(())),
        profiled("Square, exponent 1", square_case(), exponent(1), Err((6, 2))),
        profiled("Square, exponent 0", square_case(), exponent(0), Err((6, 1))),
        profiled("Square, rows 0", square_case(), rows(0), Err((9, 0))),
        profiled("Square, weight 1", square_case(), weight(1), Err((15, 0))),
        profiled("C proposed with 1, 1, -1, weight 1", light_c(), weight(1), Err((17, 0))),
        profiled("C proposed with 1, 1, -1, weight 2", light_c(), weight(2), Ok(())),
        profiled("constant 7, exponent 0", constant(7), exponent(0), Ok(())),
        profiled("no row, rows 0", constant(7), rows(0), Ok(())),
        profiled("constant 2^30, the least profile", constant(MOST), Profile::LEAST, Ok(())),
        profiled("limit by x², exponent 2", held.clone(), exponent(2), Ok(())),
        profiled("limit by x², exponent 1", held, exponent(1), Err((12, 0))),
        profiled("limit by x² without a row, exponent 1", unheld, exponent(1), Err((16, 1))),
        profiled("limit by x² with m 0, exponent 1", limited(0, &no_rows), exponent(1), Ok(())),
    ]
}
