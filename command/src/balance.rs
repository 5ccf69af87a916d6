//! Targets and shifted weights, worked out anew for advice. They decide nothing.

use crate::sheet::{Claim, Limits, Point, Proof};
use burmelox::Profile;
use std::collections::BTreeMap;

/// Well-formed sheets with their targets, their slots and what their weights are shifted to.
pub struct Balance<'a> {
    pub claim: &'a Claim,
    pub proof: &'a Proof,
    limits: &'a Limits,
    targets: BTreeMap<Point, i128>,
    /// The slots at each point in the order of rows: the row, and which of its weights.
    slots: BTreeMap<Point, Vec<(usize, usize)>>,
    /// The weights p, q and r of each row after the shift.
    pub shifted: Vec<[i128; 3]>,
}

impl<'a> Balance<'a> {
    pub fn new(claim: &'a Claim, proof: &'a Proof, limits: &'a Limits) -> Balance<'a> {
        let targets = targets(claim, proof.scale.into(), limits);
        let slots = slots(proof);
        let shifted = shifted(proof, &targets, &slots);
        Balance { claim, proof, limits, targets, slots, shifted }
    }

    /// The target at a point.
    pub fn target(&self, point: &Point) -> i128 {
        self.targets.get(point).copied().unwrap_or(0)
    }

    /// The point that the index of 16 names: a term's, the constant, or the pure power that the
    /// limit of a variable adds.
    pub fn point(&self, index: usize) -> Point {
        let terms = &self.claim.terms;
        match (terms.get(index), index.checked_sub(terms.len() + 1)) {
            (Some(term), _) => term.point.clone(),
            (_, Some(variable)) => pure_power(self.claim, self.limits, variable),
            _ => self.claim.origin(),
        }
    }

    /// How many slots are at a point.
    pub fn slots(&self, point: &Point) -> i128 {
        self.slots.get(point).map_or(0, Vec::len) as i128
    }

    /// What the slots at a point are proposed with in sum.
    pub fn proposed(&self, point: &Point) -> i128 {
        let weight = |&(row, place): &(usize, usize)| self.proof.rows[row].weights[place];
        self.slots.get(point).into_iter().flatten().map(weight).map(i128::from).sum()
    }

    /// Some row has its midpoint at a point.
    pub fn is_midpoint(&self, point: &Point) -> bool {
        self.slots.get(point).into_iter().flatten().any(|&(_, place)| place == 2)
    }

    /// By how much the shift moved the weights of a row.
    pub fn moved(&self, row: usize) -> [i128; 3] {
        let proposed = self.proof.rows[row].weights;
        std::array::from_fn(|place| self.shifted[row][place] - i128::from(proposed[place]))
    }

    /// Ends of a pair whose midpoint is this one: where there are such, both of which can have
    /// weights over 0; else the constant and twice the point, if its exponents are not too large.
    pub fn ends_around(&self, midpoint: &Point) -> Option<(Point, Point)> {
        let with_opposite = |v: &Point| Some((v.clone(), opposite(v, midpoint)?));
        let bears = |point: &Point| self.target(point) > 0 || self.is_midpoint(point);
        let points = self.targets.keys().chain(self.slots.keys());
        let mut pairs = points.filter_map(with_opposite);
        let borne = pairs.find(|(v, w)| v < w && bears(v) && bears(w));
        borne.or_else(|| with_opposite(&self.claim.origin()))
    }
}

/// The other end of a pair with this end and this midpoint.
fn opposite(end: &Point, midpoint: &Point) -> Option<Point> {
    let most = Profile::FULL.exponent as u8;
    let exponent = |(&end, &middle): (&u8, &u8)| {
        middle.checked_mul(2)?.checked_sub(end).filter(|other| *other <= most)
    };
    end.iter().zip(midpoint).map(exponent).collect()
}

fn targets(claim: &Claim, scale: i128, limits: &Limits) -> BTreeMap<Point, i128> {
    let mut targets: BTreeMap<Point, i128> = BTreeMap::from([(claim.origin(), 0)]);
    for term in &claim.terms {
        targets.insert(term.point.clone(), term.coefficient.into());
    }
    *targets.entry(claim.origin()).or_default() -= i128::from(claim.floor);
    for (point, target) in &mut targets {
        let keeps_sign = claim.odd_unmasked(point).is_empty();
        *target = scale * if keeps_sign { *target } else { -target.abs() };
    }
    let limited = limits.entries.iter().enumerate().filter(|(_, limit)| limit.power > 0);
    for (variable, limit) in limited {
        let multiplier = i128::from(limit.multiplier);
        let fall = multiplier * i128::from(limit.limit).pow(limit.power.into());
        *targets.entry(claim.origin()).or_default() -= fall;
        *targets.entry(pure_power(claim, limits, variable)).or_default() += multiplier;
    }
    targets
}

/// The power of one variable alone by which it is limited.
fn pure_power(claim: &Claim, limits: &Limits, variable: usize) -> Point {
    let mut point = claim.origin();
    point[variable] = limits.entries[variable].power;
    point
}

fn slots(proof: &Proof) -> BTreeMap<Point, Vec<(usize, usize)>> {
    let mut slots: BTreeMap<Point, Vec<(usize, usize)>> = BTreeMap::new();
    for (index, row) in proof.rows.iter().enumerate() {
        for (place, point) in row.slots().into_iter().enumerate() {
            slots.entry(point).or_default().push((index, place));
        }
    }
    slots
}

/// The weights with the error at each point shared among its slots, from the first row down.
fn shifted(
    proof: &Proof,
    targets: &BTreeMap<Point, i128>,
    slots: &BTreeMap<Point, Vec<(usize, usize)>>,
) -> Vec<[i128; 3]> {
    let mut weights: Vec<[i128; 3]> =
        proof.rows.iter().map(|row| row.weights.map(i128::from)).collect();
    for (point, slots) in slots {
        let sum: i128 = slots.iter().map(|&(row, place)| weights[row][place]).sum();
        let error = targets.get(point).unwrap_or(&0) - sum;
        let count = slots.len() as i128;
        let (share, left) = (error.div_euclid(count), error.rem_euclid(count));
        for (rank, &(row, place)) in slots.iter().enumerate() {
            weights[row][place] += share + i128::from((rank as i128) < left);
        }
    }
    weights
}
