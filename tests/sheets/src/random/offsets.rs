//! Random offsets, and claims whose terms come up to 2^56.

use super::shape::mask;
use super::Rng;
use crate::{Claim, Point, MOST_TERMS};
use std::collections::BTreeMap;

/// As many offsets, all of one sort: zeros and ones, small numbers, any of 32 bits, or the ends
/// of 32 bits among zeros and ones.
pub fn offsets(rng: &mut Rng, count: usize) -> Vec<i32> {
    let sort = rng.below(8);
    let mut offset = || match sort {
        0 | 1 => rng.pick(&[0, 1, -1]),
        2..=4 => rng.within(-9..=9) as i32,
        5 => rng.bits() as i32 >> rng.below(32),
        6 => rng.pick(&[0, 1, -1, i32::MIN, i32::MAX, 2]),
        _ => rng.pick(&[1, 2, 3, -2, i32::MIN, i32::MAX]),
    };
    (0..count).map(|_| offset()).collect()
}

/// A claim and offsets at which every term is exactly 2^56 or −2^56, all of one sign once in
/// three: offsets and coefficients are powers of two.
pub fn largest_terms(rng: &mut Rng) -> (Claim, Vec<i32>) {
    let n = 1 + rng.below(8);
    let bits: Vec<u32> = (0..n).map(|_| 1 + rng.below(9) as u32).collect();
    let alike = rng.once_in(3);
    let power_of_two = |rng: &mut Rng, bits: u32| {
        let sign = if alike { 1 } else { rng.signed(1) };
        (sign << bits) as i32
    };
    let mut terms: BTreeMap<Point, i32> = BTreeMap::new();
    for _ in 0..rng.pick(&[4, 30, 2000]) {
        let point: Point = (0..n).map(|_| rng.below(1 + 60 / n) as u8).collect();
        let monomial: u32 = point.iter().zip(&bits).map(|(&e, bits)| u32::from(e) * bits).sum();
        if (26..=56).contains(&monomial) && terms.len() < MOST_TERMS {
            terms.insert(point, power_of_two(rng, 56 - monomial));
        }
    }
    let offsets = bits.iter().map(|&bits| power_of_two(rng, bits)).collect();
    let (mask, terms) = (mask(rng, n), terms.into_iter().collect());
    (Claim { n: n as u8, mask, floor: 0, terms }, offsets)
}

/// The same with one coefficient one further from zero, so that its term is over 2^56.
pub fn over_largest_term(rng: &mut Rng) -> (Claim, Vec<i32>) {
    loop {
        let (mut claim, offsets) = largest_terms(rng);
        let mut raisable = claim.terms.iter_mut().filter(|(_, c)| c.abs() < crate::MOST);
        if let Some((_, coefficient)) = raisable.next() {
            *coefficient += coefficient.signum();
            return (claim, offsets);
        }
    }
}
