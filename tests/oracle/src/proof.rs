//! The proof sheet: refusals 8 to 10 and 12 to 15.

use crate::verdict::{refuse_at, refuse_if, Refusal};
use crate::{beyond, points, too_high, words, Point};
use site::Profile;

/// A row: two points and the weights p, q, r proposed for it.
pub struct Row {
    pub v: Point,
    pub w: Point,
    pub weights: [i32; 3],
}

impl Row {
    /// The point halfway between the two, where it is whole.
    fn midpoint(&self) -> Option<Point> {
        let half = |(a, b): (&u8, &u8)| ((a + b) % 2 == 0).then_some((a + b) / 2);
        self.v.iter().zip(&self.w).map(half).collect()
    }

    pub fn is_lone(&self) -> bool {
        self.v == self.w
    }

    /// The points of the row's slots, in the order of its weights: one for a lone row, else three.
    pub fn slots(&self) -> Vec<Point> {
        if self.is_lone() {
            return vec![self.v.clone()];
        }
        let midpoint = self.midpoint().expect("13 refuses rows with no whole midpoint");
        vec![self.v.clone(), self.w.clone(), midpoint]
    }
}

/// The number of rows and the scale, for a claim of `n` variables: refusals 8 to 10.
pub fn header(bytes: &[u8], n: usize, profile: Profile) -> Result<(usize, u32), Refusal> {
    refuse_if(8, bytes.len() < 8)?;
    let k = u16::from_le_bytes([bytes[2], bytes[3]]);
    let scale = u32::from_le_bytes([bytes[4], bytes[5], bytes[6], bytes[7]]);
    let header_is_right = usize::from(bytes[0]) == n
        && bytes[1] == 0
        && u32::from(k) <= profile.rows
        && (1..=1 << 20).contains(&scale);
    refuse_if(9, !header_is_right)?;
    let k = usize::from(k);
    refuse_if(10, bytes.len() != 8 + k * (2 * n + 12))?;
    Ok((k, scale))
}

/// The `k` rows of a sheet whose header is right: refusals 12 to 15.
pub fn rows(bytes: &[u8], n: usize, k: usize, profile: Profile) -> Result<Vec<Row>, Refusal> {
    let rows = read_rows(&bytes[8..], n, k);
    let is_high = |point| too_high(point, profile.exponent);
    let is_heavy = |&weight: &i32| beyond(weight, profile.weight);
    refuse_at(12, rows.iter().position(|row| is_high(&row.v) || is_high(&row.w)))?;
    refuse_at(13, rows.iter().position(|row| row.midpoint().is_none()))?;
    refuse_at(14, rows.iter().position(|row| row.is_lone() && row.weights[1..] != [0, 0]))?;
    refuse_at(15, rows.iter().position(|row| row.weights.iter().any(is_heavy)))?;
    Ok(rows)
}

/// The rows as they stand in the sheet behind its header: all points first, then all weights.
fn read_rows(body: &[u8], n: usize, k: usize) -> Vec<Row> {
    let (ends, weights) = body.split_at(2 * n * k);
    let (ends, weights) = (points(ends, n), words(weights));
    let row = |(ends, weights): (&[Point], &[i32])| Row {
        v: ends[0].clone(),
        w: ends[1].clone(),
        weights: [weights[0], weights[1], weights[2]],
    };
    ends.chunks_exact(2).zip(weights.chunks_exact(3)).map(row).collect()
}
