//! Sheets made backwards. First come rows with the weights they are to have after the shift, then
//! the claim whose targets these weights add up to within the limits, last the proposed weights
//! from which the shares of a chosen error lead there.

use super::rows::{faulty_row, filling_row, holding_row, limit_row};
use super::{Rng, Shape};
use crate::{keeps_sign, Claim, Limits, Point, Proof, Row, MOST, MOST_TERMS};
use std::collections::BTreeMap;

/// Sheets and the weights that the shift must give them.
pub struct Plan {
    pub claim: Claim,
    pub proof: Proof,
    pub limits: Limits,
    pub shifted: Vec<[i64; 3]>,
}

/// Rows with their shifted weights, while a plan is made.
struct Draft {
    n: usize,
    mask: u8,
    limits: Limits,
    scale: i64,
    rows: Vec<Row<i64>>,
}

impl Plan {
    /// A plan with a row for each of the faults, numbers from 17 to 19, among rows that hold.
    pub fn random(rng: &mut Rng, shape: fn(&mut Rng) -> Shape, faults: &[u32]) -> Plan {
        (0..)
            .find_map(|attempt| {
                let shape = shape(rng).shrunk(attempt / 8);
                Plan::try_new(rng, &shape, faults)
            })
            .expect("small plans fit")
    }

    /// A plan of the shape; none where it does not fit into the limits.
    pub fn try_new(rng: &mut Rng, shape: &Shape, faults: &[u32]) -> Option<Plan> {
        let draft = Draft::new(rng, shape, faults)?;
        let claim = draft.claim(rng)?;
        let proof = draft.proof(rng)?;
        let shifted = draft.rows.iter().map(|row| row.weights).collect();
        Some(Plan { claim, proof, limits: draft.limits, shifted })
    }

    /// Some row has a slot at the point.
    pub fn holds(&self, point: &Point) -> bool {
        self.proof.rows.iter().flat_map(Row::slots).any(|(slot, _)| slot == *point)
    }
}

impl Draft {
    fn new(rng: &mut Rng, shape: &Shape, faults: &[u32]) -> Option<Draft> {
        let (n, scale) = (shape.pool[0].len(), i64::from(shape.scale));
        let limits = shape.limits.clone();
        let mut draft = Draft { n, mask: shape.mask, limits, scale, rows: Vec::new() };
        for _ in 0..shape.rows {
            let row = holding_row(rng, shape, &draft.rows);
            draft.rows.push(row);
        }
        for (variable, limit) in shape.limits.limited() {
            if rng.once_in(2) {
                draft.rows.push(limit_row(rng, shape, variable, limit));
            }
        }
        for &fault in faults {
            draft.rows.push(faulty_row(rng, shape, fault)?);
        }
        draft.settle_worst_points(rng)?;
        draft.settle_kept_points();
        while draft.rows.len() < shape.least_rows {
            let row = filling_row(rng, shape, &draft.rows);
            draft.rows.push(row);
        }
        rng.shuffle(&mut draft.rows);
        (draft.rows.len() <= 256).then_some(draft)
    }

    /// What the claim has to come to at each point: the sum of the weights less what the limits
    /// add.
    fn sums(&self) -> BTreeMap<Point, i64> {
        let added = self.limits.added().into_iter();
        let mut sums: BTreeMap<Point, i64> = added.map(|(point, added)| (point, -added)).collect();
        for (point, weight) in self.rows.iter().flat_map(Row::slots) {
            *sums.entry(point).or_default() += weight;
        }
        sums
    }

    /// Rows between even ends that bring the sum at each point of the worst sign to a multiple of
    /// the scale which is not positive. None where that takes too large a weight.
    fn settle_worst_points(&mut self, rng: &mut Rng) -> Option<()> {
        for (point, sum) in self.sums() {
            if keeps_sign(self.mask, &point) || (sum <= 0 && sum % self.scale == 0) {
                continue;
            }
            let times = (-sum).div_euclid(self.scale).max(0) + rng.within(0..=2);
            let cross = -sum - self.scale * times;
            let end = (cross.abs() + 1) / 2 + rng.within(0..=3);
            if cross.abs() > i64::from(MOST) {
                return None;
            }
            let v = point.iter().map(|exponent| exponent - exponent % 2).collect();
            let w = point.iter().map(|exponent| exponent + exponent % 2).collect();
            self.rows.push(Row { v, w, weights: [end, end, cross] });
        }
        Some(())
    }

    /// Lone rows that bring the sum at each point of kept sign to a multiple of the scale.
    fn settle_kept_points(&mut self) {
        for (point, sum) in self.sums() {
            let missing = (-sum).rem_euclid(self.scale);
            if keeps_sign(self.mask, &point) && missing > 0 {
                self.rows.push(Row { v: point.clone(), w: point, weights: [missing, 0, 0] });
            }
        }
    }

    /// The claim whose targets within the limits are the sums of the weights, none where it does
    /// not fit.
    fn claim(&self, rng: &mut Rng) -> Option<Claim> {
        let mut coefficients: BTreeMap<Point, i64> = BTreeMap::new();
        for (point, sum) in self.sums() {
            let times = sum / self.scale;
            let coefficient = if keeps_sign(self.mask, &point) { times } else { rng.signed(times) };
            coefficients.insert(point, coefficient);
        }
        let constant = coefficients.entry(vec![0; self.n]).or_default();
        let floor = random_floor(rng, *constant);
        *constant += floor;
        coefficients.retain(|_, coefficient| *coefficient != 0);

        let narrow = |number: i64| {
            i32::try_from(number).ok().filter(|number| (-MOST..=MOST).contains(number))
        };
        let terms = coefficients.into_iter().map(|(point, c)| Some((point, narrow(c)?)));
        let terms: Vec<(Point, i32)> = terms.collect::<Option<_>>()?;
        let claim = Claim { n: self.n as u8, mask: self.mask, floor: narrow(floor)?, terms };
        (claim.terms.len() <= MOST_TERMS).then_some(claim)
    }

    /// The proof whose proposed weights are short of the planned ones by the shares of a random
    /// error at each point, none where no error leaves them all within the limits.
    fn proof(&self, rng: &mut Rng) -> Option<Proof> {
        let mut proposed: Vec<[i64; 3]> = self.rows.iter().map(|row| row.weights).collect();
        for slots in self.slots().values() {
            let weights: Vec<i64> =
                slots.iter().map(|&(row, place)| proposed[row][place]).collect();
            let error = random_error(rng, &weights)?;
            let count = slots.len() as i64;
            let (share, remainder) = (error.div_euclid(count), error.rem_euclid(count));
            for (rank, &(row, place)) in (0..).zip(slots) {
                proposed[row][place] -= share + i64::from(rank < remainder);
            }
        }
        let row = |(row, weights): (&Row<i64>, [i64; 3])| Row {
            v: row.v.clone(),
            w: row.w.clone(),
            weights: weights.map(|weight| weight as i32),
        };
        let rows = self.rows.iter().zip(proposed).map(row).collect();
        Some(Proof { n: self.n as u8, scale: self.scale as u32, rows })
    }

    /// The slots at each point in row order: the row, and which of its weights.
    fn slots(&self) -> BTreeMap<Point, Vec<(usize, usize)>> {
        let mut slots: BTreeMap<Point, Vec<(usize, usize)>> = BTreeMap::new();
        for (index, row) in self.rows.iter().enumerate() {
            for (place, (point, _)) in row.slots().into_iter().enumerate() {
                slots.entry(point).or_default().push((index, place));
            }
        }
        slots
    }
}

/// A floor; one in four leaves the claim without a constant.
fn random_floor(rng: &mut Rng, constant: i64) -> i64 {
    match rng.below(8) {
        0 | 1 => -constant,
        2 => rng.signed(MOST.into()),
        3 => rng.within(-i64::from(MOST)..=MOST.into()),
        4 | 5 => 0,
        _ => rng.within(-9..=9),
    }
}

/// An error to be shared by slots that are to end with the given weights, so that the proposed
/// ones are within the limits.
fn random_error(rng: &mut Rng, weights: &[i64]) -> Option<i64> {
    let count = weights.len() as i64;
    let least = count * (weights.iter().max()? - i64::from(MOST));
    let most = count * (weights.iter().min()? + i64::from(MOST));
    let error = match rng.below(16) {
        0..=3 => 0,
        4 => least,
        5 => most,
        6..=8 => rng.within(-(1 << 20)..=1 << 20),
        _ => rng.within(-2 * count..=2 * count),
    };
    (least <= most).then(|| error.clamp(least, most))
}
