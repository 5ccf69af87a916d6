//! The library's method in Rust with i64: every slot goes over all rows and compares points byte
//! by byte; no list of sums is kept.

use crate::fields::Sheets;
use crate::judging::Method;

pub struct Scanning;

impl Method for Scanning {
    fn new(_: &Sheets) -> Scanning {
        Scanning
    }

    fn holds(&self, sheets: &Sheets, point: &[u8]) -> bool {
        (0..sheets.k).any(|row| weight_at(sheets, row, point).is_some())
    }

    fn shifted(&self, sheets: &Sheets, row: usize) -> [i64; 3] {
        let [p, q, r] = sheets.weights(row);
        let p = p + share(sheets, row, sheets.v(row));
        if sheets.is_lone(row) {
            return [p, 0, 0];
        }
        let midpoint = sheets.midpoint(row);
        let q = q + share(sheets, row, sheets.w(row));
        let r = r + share(sheets, row, &midpoint[..sheets.n]);
        [p, q, r]
    }
}

/// The weight of the row's slot at the point, where it has one.
fn weight_at(sheets: &Sheets, row: usize, point: &[u8]) -> Option<i64> {
    let (v, w) = (sheets.v(row), sheets.w(row));
    let is_midpoint = || point.iter().zip(v.iter().zip(w)).all(|(&u, (&v, &w))| 2 * u == v + w);
    let slot = if v == point {
        0
    } else if w == point {
        1
    } else if is_midpoint() {
        2
    } else {
        return None;
    };
    Some(sheets.weights(row)[slot])
}

/// The row's share of the error at one of its points.
fn share(sheets: &Sheets, row: usize, point: &[u8]) -> i64 {
    let (mut sum, mut count, mut rank) = (0, 0, 0);
    for other in 0..sheets.k {
        if let Some(weight) = weight_at(sheets, other, point) {
            sum += weight;
            rank += i64::from(other < row);
            count += 1;
        }
    }
    let error = sheets.target(point) - sum;
    error.div_euclid(count) + i64::from(rank < error.rem_euclid(count))
}
