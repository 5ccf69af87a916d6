//! The claim sheet: refusals 1 to 7.

use crate::verdict::{refuse_at, refuse_if, Refusal};
use crate::{beyond, points, too_high, word, words, Point, MOST};
use site::Profile;

/// A claim: the polynomial as its terms, the variables that are never negative, and the floor.
pub struct Claim {
    pub variables: usize,
    pub mask: u8,
    pub floor: i32,
    pub terms: Vec<(Point, i32)>,
}

impl Claim {
    /// The constant's point.
    pub fn origin(&self) -> Point {
        vec![0; self.variables]
    }

    /// A coefficient at the point keeps its sign: every odd exponent is of a masked variable.
    pub fn keeps_sign(&self, point: &Point) -> bool {
        let mut exponents = point.iter().enumerate();
        exponents.all(|(variable, exponent)| exponent % 2 == 0 || has_bit(self.mask, variable))
    }
}

/// The mask says that the variable is never negative.
fn has_bit(mask: u8, variable: usize) -> bool {
    mask >> variable & 1 == 1
}

/// The number of variables and of terms, refused by 1 and 2.
pub fn header(bytes: &[u8]) -> Result<(usize, usize), Refusal> {
    refuse_if(1, bytes.len() < 8)?;
    let (n, t) = (usize::from(bytes[0]), usize::from(bytes[1]));
    let is_past = (n..8).any(|variable| has_bit(bytes[2], variable));
    refuse_if(2, !(1..=8).contains(&n) || t > 64 || is_past || bytes[3] != 0)?;
    Ok((n, t))
}

/// The length of a claim of `n` variables and `t` terms.
pub fn length(n: usize, t: usize) -> usize {
    8 + t * (n + 4)
}

/// The claim in the sheet, under a profile in range.
pub fn read(bytes: &[u8], profile: Profile) -> Result<Claim, Refusal> {
    let (n, t) = header(bytes)?;
    refuse_if(3, bytes.len() != length(n, t))?;
    let floor = word(&bytes[4..8]);
    let (exponents, coefficients) = bytes[8..].split_at(t * n);
    let (points, coefficients) = (points(exponents, n), words(coefficients));

    refuse_if(4, beyond(floor, MOST))?;
    refuse_at(5, coefficients.iter().position(|&c| c == 0 || beyond(c, MOST)))?;
    refuse_at(6, points.iter().position(|point| too_high(point, profile.exponent)))?;
    let falling = points.windows(2).position(|two| two[0] >= two[1]);
    refuse_at(7, falling.map(|index| index + 1))?;
    let terms = points.into_iter().zip(coefficients).collect();
    Ok(Claim { variables: n, mask: bytes[2], floor, terms })
}
