//! Evaluation: the exact value of a claim's polynomial, refusals 27, 1 to 7, 20 and 21.

use crate::claim::{self, Claim};
use crate::verdict::{refuse_at, refuse_if, Refusal};
use crate::{profile, Integer};
use site::Profile;

/// The exact value of the claim's polynomial at the offsets, where no term is over 2^56.
pub fn evaluate(claim: &[u8], profile: Profile, offsets: &[i32]) -> Result<Integer, Refusal> {
    profile::check(profile)?;
    let polynomial = claim::read(claim, profile)?;
    refuse_if(20, offsets.len() != polynomial.variables)?;
    let offsets: Vec<Integer> = offsets.iter().map(|&offset| Integer::from(offset)).collect();
    let terms = terms(&polynomial, &offsets);
    let limit = Integer::from(1i64 << 56);
    refuse_at(21, terms.iter().position(|term| term.abs() > limit))?;
    Ok(sum(&terms))
}

/// The value of each term at whole numbers of any size, as many as the claim has variables.
pub fn terms(polynomial: &Claim, numbers: &[Integer]) -> Vec<Integer> {
    let term = |(point, coefficient): &(Vec<u8>, i32)| {
        &Integer::from(*coefficient) * &monomial(point, numbers)
    };
    polynomial.terms.iter().map(term).collect()
}

pub fn sum(terms: &[Integer]) -> Integer {
    terms.iter().fold(Integer::default(), |sum, term| &sum + term)
}

fn monomial(point: &[u8], numbers: &[Integer]) -> Integer {
    let powers = point.iter().zip(numbers).map(|(&exponent, number)| power(number, exponent));
    powers.fold(Integer::from(1), |product, power| &product * &power)
}

/// A power with exponent 0 is one, also at zero.
pub fn power(base: &Integer, exponent: u8) -> Integer {
    (0..exponent).fold(Integer::from(1), |power, _| base * &power)
}
