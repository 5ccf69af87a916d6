//! Natural numbers of any size, as far as rounding needs them.

use std::cmp::Ordering;

/// A natural number in pieces of nine decimal digits, the lowest first, with no zero at the high
/// end.
#[derive(Clone, Debug, PartialEq, Eq)]
pub struct Natural(Vec<u32>);

/// The base of the pieces.
const BASE: u64 = 1_000_000_000;

impl Natural {
    /// The number of some ASCII digits.
    pub fn of_digits(digits: &[u8]) -> Natural {
        let piece =
            |digits: &[u8]| digits.iter().fold(0, |sum, digit| 10 * sum + u32::from(digit - b'0'));
        Natural::new(digits.rchunks(9).map(piece).collect())
    }

    fn new(mut pieces: Vec<u32>) -> Natural {
        while pieces.last() == Some(&0) {
            pieces.pop();
        }
        Natural(pieces)
    }

    pub fn is_zero(&self) -> bool {
        self.0.is_empty()
    }

    /// The product with a factor of at most 2^33, so that a piece times the factor and what is
    /// carried fit into 64 bits.
    pub fn times(&self, factor: u64) -> Natural {
        let mut carry = 0;
        let mut pieces = Vec::with_capacity(self.0.len() + 3);
        for &piece in &self.0 {
            carry += u64::from(piece) * factor;
            pieces.push((carry % BASE) as u32);
            carry /= BASE;
        }
        while carry > 0 {
            pieces.push((carry % BASE) as u32);
            carry /= BASE;
        }
        Natural::new(pieces)
    }
}

impl PartialOrd for Natural {
    fn partial_cmp(&self, other: &Natural) -> Option<Ordering> {
        Some(self.cmp(other))
    }
}

impl Ord for Natural {
    fn cmp(&self, other: &Natural) -> Ordering {
        let by_length = self.0.len().cmp(&other.0.len());
        by_length.then_with(|| self.0.iter().rev().cmp(other.0.iter().rev()))
    }
}
