//! Fractions of an offset, document 02's note 5: a floor beside a claim's polynomial at h / d, both
//! written over whole numbers.

use crate::claim;
use crate::evaluate::{sum, terms};
use crate::verdict::Refusal;
use crate::{Integer, Point};
use site::Profile;

/// The floor and the polynomial's value, both multiplied by d to the polynomial's greatest total
/// degree.
#[derive(Debug, PartialEq, Eq)]
pub struct Sides {
    pub floor: Integer,
    pub value: Integer,
}

/// Each term, and the floor as a constant term, is multiplied by d to the degree it lacks of the
/// claim's greatest total degree, which is 0 without terms.
pub fn sides(claim: &[u8], floor: &Integer, h: &[Integer], d: u32) -> Result<Sides, Refusal> {
    let polynomial = claim::read(claim, Profile::FULL)?;
    let degrees: Vec<usize> = polynomial.terms.iter().map(|(point, _)| degree(point)).collect();
    let greatest = degrees.iter().copied().max().unwrap_or(0);
    let powers = powers(&Integer::from(d), greatest);
    let lifted = |(term, degree): (&Integer, usize)| term * &powers[greatest - degree];
    let lifted: Vec<Integer> = terms(&polynomial, h).iter().zip(degrees).map(lifted).collect();
    Ok(Sides { floor: floor * &powers[greatest], value: sum(&lifted) })
}

/// The sum of the exponents.
fn degree(point: &Point) -> usize {
    point.iter().copied().map(usize::from).sum()
}

/// The powers with exponents 0 to `greatest`.
fn powers(base: &Integer, greatest: usize) -> Vec<Integer> {
    let next = |power: &Integer| Some(base * power);
    std::iter::successors(Some(Integer::from(1)), next).take(greatest + 1).collect()
}
