//! Random rows with the weights they are to have after the shift: at the edges of what is judged
//! and around them.

use super::{Rng, Shape};
use crate::{keeps_sign, Limit, Row, MOST};

/// The numbers that judge single rows after the shift.
pub const JUDGED: [u32; 3] = [17, 18, 19];

/// A row that holds: the points of an earlier one again, or a pair or a lone row of the pool.
pub fn holding_row(rng: &mut Rng, shape: &Shape, earlier: &[Row<i64>]) -> Row<i64> {
    let (v, w) = if !earlier.is_empty() && rng.once_in(5) {
        let Row { v, w, .. } = rng.pick(earlier);
        (v, w)
    } else if !shape.only_pairs && rng.once_in(4) {
        shape.lone_ends(rng)
    } else {
        shape.pair_ends(rng).unwrap_or_else(|| shape.lone_ends(rng))
    };
    let weights = if v != w {
        holding_weights(rng, shape.weight)
    } else if keeps_sign(shape.mask, &v) {
        [end_weight(rng, shape.weight), 0, 0]
    } else {
        [0, 0, 0]
    };
    Row { v, w, weights }
}

/// A row that holds and has as its weight at the variable's pure power what the limit adds there.
pub fn limit_row(rng: &mut Rng, shape: &Shape, variable: usize, limit: &Limit) -> Row<i64> {
    let pure_power = |power| shape.limits.pure_power(variable, power);
    let multiplier = i64::from(limit.multiplier);
    if shape.closed || rng.once_in(2) {
        let point = pure_power(limit.power);
        return Row { v: point.clone(), w: point, weights: [multiplier, 0, 0] };
    }
    let p = end_weight(rng, shape.weight);
    let weights = [p, multiplier, cross_weight(rng, p, multiplier)];
    Row { v: pure_power(0), w: pure_power(limit.power), weights }
}

/// A row that holds and leaves every sum as good as it was: its weights are multiples of the scale
/// where coefficients keep their signs at all of its points, else zeros.
pub fn filling_row(rng: &mut Rng, shape: &Shape, earlier: &[Row<i64>]) -> Row<i64> {
    let row = holding_row(rng, shape, earlier);
    let (a, b) = (rng.within(0..=5), rng.within(0..=5));
    let cross = (4 * a * b).isqrt();
    let weights = if row.slots().iter().any(|(point, _)| !keeps_sign(shape.mask, point)) {
        [0, 0, 0]
    } else if row.is_lone() {
        [a, 0, 0]
    } else {
        [a, b, rng.within(-cross..=cross)]
    };
    Row { weights: weights.map(|weight| weight * i64::from(shape.scale)), ..row }
}

/// A row that breaks the rule 17, 18 or 19, and none of them before it. A lone row cannot break 19.
pub fn faulty_row(rng: &mut Rng, shape: &Shape, fault: u32) -> Option<Row<i64>> {
    if fault != 19 && rng.once_in(3) {
        let (v, w) = shape.lone_ends(rng);
        let p = if fault == 17 { past_most(rng) } else { negative_weights(rng, shape.weight)[0] };
        return Some(Row { v, w, weights: [p, 0, 0] });
    }
    let (v, w) = shape.pair_ends(rng)?;
    let mut weights = match fault {
        17 => beyond_weights(rng, shape.weight),
        18 => negative_weights(rng, shape.weight),
        _ => crossed_weights(rng, shape.weight),
    };
    if rng.once_in(2) {
        weights.swap(0, 1);
    }
    Some(Row { v, w, weights })
}

/// A weight just or far beyond ±2^30.
fn past_most(rng: &mut Rng) -> i64 {
    let past = rng.pick(&[1, 1, 2, 1000, 1 << 29]);
    rng.signed(i64::from(MOST) + past)
}

/// Weights one of which is beyond ±2^30.
fn beyond_weights(rng: &mut Rng, most: i64) -> [i64; 3] {
    let mut weights = holding_weights(rng, most);
    weights[rng.below(3)] = past_most(rng);
    weights
}

/// Weights whose p is negative, by one as often as by more.
fn negative_weights(rng: &mut Rng, most: i64) -> [i64; 3] {
    let [p, q, r] = holding_weights(rng, most);
    [if rng.once_in(2) { -1 } else { -p.max(1) }, q, r]
}

/// Weights whose r × r is over 4 × p × q, by one as often as by more.
fn crossed_weights(rng: &mut Rng, most: i64) -> [i64; 3] {
    let half = end_weight(rng, (most / 2 - 1).max(0));
    let [p, q, _] = holding_weights(rng, most / 4);
    let cross = (4 * p * q).isqrt() + 1;
    match rng.below(3) {
        0 => [half, half + 1, rng.signed(2 * half + 1)],
        1 => [0, q, rng.signed(1)],
        _ => [p, q, rng.signed(cross)],
    }
}

/// Weights that hold, at the edge of r × r = 4 × p × q or as near as whole numbers come to it
/// once in three.
fn holding_weights(rng: &mut Rng, most: i64) -> [i64; 3] {
    let (p, q) = (end_weight(rng, most), end_weight(rng, most));
    let q = if rng.once_in(4) { p } else { q };
    [p, q, cross_weight(rng, p, q)]
}

/// A weight between ends with the given ones.
fn cross_weight(rng: &mut Rng, p: i64, q: i64) -> i64 {
    let cross = (4 * p * q).isqrt().min(i64::from(MOST));
    if rng.once_in(3) {
        rng.signed(cross)
    } else {
        rng.within(-cross..=cross)
    }
}

/// A weight from 0 up to `most`, of any size, and each end of that more often.
fn end_weight(rng: &mut Rng, most: i64) -> i64 {
    let size = most >> rng.below(31);
    match rng.below(10) {
        0 => 0,
        1 => most,
        _ => rng.within(0..=size),
    }
}
