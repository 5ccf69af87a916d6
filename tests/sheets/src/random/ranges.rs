//! Random floors for searches, around those that a plan's rows carry.

use super::{Plan, Rng};
use crate::{Point, Row, MOST};
use std::ops::RangeInclusive;

/// The floors from `lo` to `hi`.
pub type Floors = RangeInclusive<i64>;

/// The greatest floor.
const TOP: i64 = MOST as i64;

/// The greatest hi − lo.
const WIDEST: i64 = 4095;

/// The oracle checks each floor anew, so searches of larger proofs have few floors.
const ROWS_OF_LONG_SEARCHES: usize = 8;

/// A row's slot at the constant: its weights before and after the shift, and the least with which
/// the row holds, where that is no more than 2^30.
struct Slot {
    proposed: i64,
    shifted: i64,
    least: i64,
}

impl Slot {
    fn of((row, shifted): (&Row, &[i64; 3])) -> Option<Slot> {
        let is_constant = |point: &&Point| point.iter().all(|&exponent| exponent == 0);
        let place = [&row.v, &row.w].iter().position(is_constant)?;
        let (other, cross) = (shifted[1 - place], shifted[2]);
        let least = if other > 0 { -(-cross * cross).div_euclid(4 * other) } else { 0 };
        Some(Slot {
            proposed: row.weights[place].into(),
            shifted: shifted[place],
            least: least.min(TOP + 1),
        })
    }
}

impl Plan {
    /// The floors that the rows at the constant carry with weights up to the profile's; no other
    /// floor is accepted. Without such rows it is the one whose target is zero.
    pub fn carried(&self, weight: u32) -> Floors {
        let (floor, scale) = (i64::from(self.claim.floor), i64::from(self.proof.scale));
        let rows = self.proof.rows.iter().zip(&self.shifted);
        let slots: Vec<Slot> = rows.filter_map(Slot::of).collect();
        let count = slots.len() as i64;
        let error: i64 = slots.iter().map(|slot| slot.shifted - slot.proposed).sum();
        // The highest floor at which the slot of that rank still has the weight.
        let reaches = |rank: i64, proposed: i64, weight: i64| {
            let room = error + count - 1 - rank - count * (weight - proposed);
            floor + room.div_euclid(scale)
        };
        let slots = || (0..).zip(&slots);
        let past = i64::from(weight) + 1;
        let past = slots().map(|(rank, slot)| reaches(rank, slot.proposed, past) + 1);
        let held = slots().map(|(rank, slot)| reaches(rank, slot.proposed, slot.least));
        past.max().unwrap_or(floor)..=held.min().unwrap_or(floor)
    }
}

/// Floors around the highest or the lowest of the carried ones, or just past it, for a proof of so
/// many rows.
pub fn around(rng: &mut Rng, carried: &Floors, rows: usize) -> Floors {
    let lowest = *carried.start();
    let end = if lowest >= -TOP && rng.once_in(4) { lowest } else { *carried.end() };
    let span = span(rng, rows);
    let hi = end + rng.within(-1..=span + 1);
    (hi - span).clamp(-TOP, TOP)..=hi.clamp(-TOP, TOP)
}

/// Floors from above the highest carried one down to it or further.
pub fn down_to(rng: &mut Rng, carried: &Floors) -> Floors {
    let most = rng.pick(&[9, 99, 999, WIDEST]);
    let above = rng.within(0..=most).min(TOP - carried.end());
    let under = rng.within(0..=WIDEST - above).min(TOP + carried.end());
    carried.end() - rng.pick(&[0, under])..=carried.end() + above
}

/// Floors that are all above the carried ones or all under them, none where the limits leave no
/// room there.
pub fn outside(rng: &mut Rng, carried: &Floors, rows: usize) -> Option<Floors> {
    let (span, gap) = (span(rng, rows), rng.pick(&[1, 1, 2, 100]));
    let hi = if rng.once_in(2) { carried.end() + gap + span } else { carried.start() - gap };
    (hi - span >= -TOP && hi <= TOP).then_some(hi - span..=hi)
}

/// How far apart a search's ends are: a few floors, or many and the most in small proofs.
fn span(rng: &mut Rng, rows: usize) -> i64 {
    if rows > ROWS_OF_LONG_SEARCHES || !rng.once_in(16) {
        return rng.within(0..=6);
    }
    let any = rng.within(0..=WIDEST);
    rng.pick(&[any, WIDEST])
}

/// Ends that no search may have: lo over hi, one or both beyond ±2^30, or too far apart; each by
/// one and by more.
pub fn wrong(rng: &mut Rng) -> (i64, i64) {
    let (near, far) = (rng.within(-9..=9), rng.within(-TOP..=TOP - WIDEST - 1));
    let lo = rng.pick(&[near, far]);
    let hi = lo + rng.within(0..=WIDEST);
    let past = TOP + rng.pick(&[1, 1, 2, 1 << 32, i64::MAX - TOP]);
    match rng.below(8) {
        0 => (lo + 1, lo),
        1 => (hi + 1, lo),
        2 => (lo, past),
        3 => (-past, hi),
        4 => (past - 1, past),
        5 => (-past, 1 - past),
        6 => (lo, lo + WIDEST + 1),
        _ => rng.pick(&[(i64::MIN, i64::MAX), (i64::MAX, i64::MIN), (i64::MIN, lo), (-TOP, TOP)]),
    }
}
