//! The check with a hash map of sums: each slot is met twice, however many rows there are.

use crate::fields::Sheets;
use crate::judging::Method;
use std::collections::HashMap;

/// The shifted weights of all rows, and the tallies they were found by.
pub struct Hashed {
    tallies: HashMap<[u8; 8], Tally>,
    shifted: Vec<[i64; 3]>,
}

/// The error at a point, the number of its slots, and how many have had their share.
#[derive(Default)]
struct Tally {
    error: i64,
    count: i64,
    served: i64,
}

impl Method for Hashed {
    fn new(sheets: &Sheets) -> Hashed {
        let mut tallies: HashMap<[u8; 8], Tally> = HashMap::new();
        for row in 0..sheets.k {
            for (point, weight) in slots(sheets, row) {
                let tally = tallies.entry(point).or_default();
                tally.error -= weight;
                tally.count += 1;
            }
        }
        for (point, tally) in &mut tallies {
            tally.error += sheets.target(&point[..sheets.n]);
        }
        let mut shifted = Vec::with_capacity(sheets.k);
        for row in 0..sheets.k {
            let mut weights = [0; 3];
            for (weight, (point, proposed)) in weights.iter_mut().zip(slots(sheets, row)) {
                *weight =
                    proposed + tallies.get_mut(&point).expect("every slot is tallied").next_share();
            }
            shifted.push(weights);
        }
        Hashed { tallies, shifted }
    }

    fn holds(&self, _: &Sheets, point: &[u8]) -> bool {
        self.tallies.contains_key(&padded(point))
    }

    fn shifted(&self, _: &Sheets, row: usize) -> [i64; 3] {
        self.shifted[row]
    }
}

impl Tally {
    /// The next slot's share of the error.
    fn next_share(&mut self) -> i64 {
        let one_more = self.served < self.error.rem_euclid(self.count);
        self.served += 1;
        self.error.div_euclid(self.count) + i64::from(one_more)
    }
}

/// A row's slots: one for a lone row, else three.
fn slots(sheets: &Sheets, row: usize) -> impl Iterator<Item = ([u8; 8], i64)> {
    let points = [padded(sheets.v(row)), padded(sheets.w(row)), sheets.midpoint(row)];
    let count = if sheets.is_lone(row) { 1 } else { 3 };
    points.into_iter().zip(sheets.weights(row)).take(count)
}

/// A point as a key; exponents past n are zero.
fn padded(point: &[u8]) -> [u8; 8] {
    let mut key = [0; 8];
    key[..point.len()].copy_from_slice(point);
    key
}
