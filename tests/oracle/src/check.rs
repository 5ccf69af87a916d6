//! The check: the order of its sheets, the output's length (11), targets, sharing the error,
//! judging (16 to 19) and the exact proof.

use crate::claim::{self, Claim};
use crate::limits::{self, Limits};
use crate::proof::{self, Row};
use crate::verdict::{refuse_at, refuse_if, Accepted, Refusal, Verdict};
use crate::{profile, Integer, Point};
use site::Profile;
use std::collections::BTreeMap;

/// A row's weights p, q, r after the shift.
type Shifted = [Integer; 3];

/// The target at each point that has one; at every other point it is 0.
type Targets = BTreeMap<Point, Integer>;

/// The slots at each held point, in row order: the row, and which of its weights.
type Slots = BTreeMap<Point, Vec<(usize, usize)>>;

/// The verdict on a claim and a proof with limits, a profile and an output of `room` bytes.
pub fn check(claim: &[u8], proof: &[u8], limits: &[u8], profile: Profile, room: usize) -> Verdict {
    Sheets::read(claim, proof, Some(limits), profile, room)?.judge()
}

/// The verdict where there is no limits sheet and no variable is limited, under the full profile.
pub fn check_unlimited(claim: &[u8], proof: &[u8], room: usize) -> Verdict {
    Sheets::read(claim, proof, None, Profile::FULL, room)?.judge()
}

/// Sheets that passed the checks 27, 1 to 15, 24 and 25, with the bytes of the proof and the
/// greatest weight.
pub struct Sheets<'a> {
    pub claim: Claim,
    scale: u32,
    rows: Vec<Row>,
    proof: &'a [u8],
    limits: Limits,
    weight: Integer,
}

impl<'a> Sheets<'a> {
    /// The sheets in the order of their checks: 27, 1 to 10, 24, 25, 11, 12 to 15.
    pub fn read(
        claim: &[u8],
        proof: &'a [u8],
        limits: Option<&[u8]>,
        profile: Profile,
        room: usize,
    ) -> Result<Sheets<'a>, Refusal> {
        profile::check(profile)?;
        let claim = claim::read(claim, profile)?;
        let n = claim.variables;
        let (k, scale) = proof::header(proof, n, profile)?;
        let limits = match limits {
            Some(sheet) => limits::read(sheet, n)?,
            None => Limits::default(),
        };
        refuse_if(11, room < proof.len())?;
        let rows = proof::rows(proof, n, k, profile)?;
        let weight = Integer::from(profile.weight);
        Ok(Sheets { claim, scale, rows, proof, limits, weight })
    }

    /// The verdict by 16 to 19.
    pub fn judge(&self) -> Verdict {
        let targets = self.targets();
        let slots = slots(&self.rows);
        refuse_at(16, self.without_slot(&targets, &slots))?;

        let shifted = shift(&self.rows, &targets, &slots);
        refuse_at(17, shifted.iter().position(|weights| is_beyond(weights, &self.weight)))?;
        refuse_at(18, shifted.iter().position(has_negative_end))?;
        refuse_at(19, shifted.iter().position(has_large_cross))?;

        let weights: Vec<[i32; 3]> = shifted.iter().map(narrow).collect();
        let bytes = written(self.proof, &weights);
        Ok(Accepted { floor: self.claim.floor, scale: self.scale, weights, bytes })
    }

    /// The target at each point of g, which is f with the floor taken from its constant, and at
    /// those that the limits add.
    fn targets(&self) -> Targets {
        let mut targets = Targets::new();
        for (point, coefficient) in &self.claim.terms {
            targets.insert(point.clone(), Integer::from(*coefficient));
        }
        let constant = targets.entry(self.claim.origin()).or_default();
        *constant = &*constant - &Integer::from(self.claim.floor);

        let scale = Integer::from(self.scale);
        for (point, target) in &mut targets {
            let worst = if self.claim.keeps_sign(point) { target.clone() } else { -&target.abs() };
            *target = &scale * &worst;
        }
        for added in self.limits.added() {
            let constant = targets.entry(self.claim.origin()).or_default();
            *constant = &*constant - &added.fall;
            let target = targets.entry(added.pure_power).or_default();
            *target = &*target + &added.rise;
        }
        targets
    }

    /// The first claim term whose target is not zero and that no row holds, then the constant,
    /// then the points that the limits add, by variable: where the claim has one of the latter, it
    /// was met among the terms.
    fn without_slot(&self, targets: &Targets, slots: &Slots) -> Option<usize> {
        let misses = |point: &Point| !targets[point].is_zero() && !slots.contains_key(point);
        let t = self.claim.terms.len();
        let term = self.claim.terms.iter().position(|(point, _)| misses(point));
        let constant = || misses(&self.claim.origin()).then_some(t);
        let added = || {
            let missed = self.limits.added().find(|added| misses(&added.pure_power))?;
            Some(t + 1 + missed.variable)
        };
        term.or_else(constant).or_else(added)
    }
}

fn slots(rows: &[Row]) -> Slots {
    let mut slots = Slots::new();
    for (index, row) in rows.iter().enumerate() {
        for (place, point) in row.slots().into_iter().enumerate() {
            slots.entry(point).or_default().push((index, place));
        }
    }
    slots
}

/// The rows' weights with the error at each held point shared among its slots.
fn shift(rows: &[Row], targets: &Targets, slots: &Slots) -> Vec<Shifted> {
    let mut shifted: Vec<Shifted> = rows.iter().map(|row| row.weights.map(Integer::from)).collect();
    for (point, slots) in slots {
        let mut error = targets.get(point).cloned().unwrap_or_default();
        for &(row, place) in slots {
            error = &error - &shifted[row][place];
        }
        let (share, remainder) = error.div_floor(slots.len() as u32);
        for (rank, &(row, place)) in slots.iter().enumerate() {
            let one_more = Integer::from(u32::from(rank < remainder as usize));
            shifted[row][place] = &(&shifted[row][place] + &share) + &one_more;
        }
    }
    shifted
}

fn is_beyond(weights: &Shifted, most: &Integer) -> bool {
    weights.iter().any(|weight| weight.abs() > *most)
}

fn has_negative_end([p, q, _]: &Shifted) -> bool {
    p.is_negative() || q.is_negative()
}

fn has_large_cross([p, q, r]: &Shifted) -> bool {
    r * r > &Integer::from(4) * &(p * q)
}

/// Judged weights, which are within ±2^30 under every profile, in 32 bits each.
fn narrow(weights: &Shifted) -> [i32; 3] {
    weights.each_ref().map(|weight| weight.to_i32().expect("17 refuses weights beyond ±2^30"))
}

/// The proof's bytes with other weights.
fn written(proof: &[u8], weights: &[[i32; 3]]) -> Vec<u8> {
    let mut bytes = proof[..proof.len() - 12 * weights.len()].to_vec();
    bytes.extend(weights.as_flattened().iter().flat_map(|weight| weight.to_le_bytes()));
    bytes
}
