//! Random profiles: as large as sheets need or larger, too small for a plan, any, and out of range.

use super::{Plan, Rng};
use crate::{Claim, Point, Profile, Proof};

const FULL: Profile = Profile::FULL;
const LEAST: Profile = Profile::LEAST;

/// What sheets ask of a profile: the greatest exponents of the claim and of the rows, the greatest
/// weights before and after the shift, and the number of rows.
struct Needs {
    claim: u32,
    ends: u32,
    proposed: u32,
    shifted: u32,
    rows: u32,
}

impl Needs {
    fn of(claim: &Claim, proof: &Proof, shifted: &[[i64; 3]]) -> Needs {
        let proposed = proof.rows.iter().flat_map(|row| row.weights);
        let shifted = shifted.iter().flatten();
        Needs {
            claim: greatest(claim.terms.iter().map(|(point, _)| point)),
            ends: greatest(proof.rows.iter().flat_map(|row| [&row.v, &row.w])),
            proposed: proposed.map(i32::unsigned_abs).max().unwrap_or(0),
            shifted: shifted.map(|weight| weight.unsigned_abs() as u32).max().unwrap_or(0),
            rows: proof.rows.len() as u32,
        }
    }

    /// The smallest profile in range that lets pass all of this that the full one does.
    fn profile(&self) -> Profile {
        Profile {
            exponent: self.claim.max(self.ends),
            weight: self.proposed.max(self.shifted).clamp(LEAST.weight, FULL.weight),
            rows: self.rows,
        }
    }
}

/// The greatest exponent of the points.
fn greatest<'a>(points: impl Iterator<Item = &'a Point>) -> u32 {
    points.flatten().copied().max().unwrap_or(0).into()
}

/// The smallest profile for a claim and a proof whose weights are not shifted.
pub fn needed(claim: &Claim, proof: &Proof) -> Profile {
    Needs::of(claim, proof, &[]).profile()
}

impl Plan {
    /// The smallest profile for the plan.
    pub fn needed(&self) -> Profile {
        self.needs().profile()
    }

    /// A profile by which the number refuses a plan of rows that hold, too small by one as often as
    /// by more; none where there is none.
    pub fn tight(&self, rng: &mut Rng, number: u32) -> Option<Profile> {
        let enough = larger(rng, self.needed());
        let mut under = |needed: u32, least: u32| {
            let most = needed.checked_sub(1).filter(|&most| most >= least)?;
            let any = within(rng, least, most);
            Some(rng.pick(&[any, most]))
        };
        let Needs { claim, ends, proposed, shifted, rows } = self.needs();
        Some(match number {
            6 => Profile { exponent: under(claim, 0)?, ..enough },
            9 => Profile { rows: under(rows, 0)?, ..enough },
            12 => Profile { exponent: under(ends, claim)?, ..enough },
            15 => Profile { weight: under(proposed, LEAST.weight)?, ..enough },
            _ => Profile { weight: under(shifted, proposed.max(LEAST.weight))?, ..enough },
        })
    }

    fn needs(&self) -> Needs {
        Needs::of(&self.claim, &self.proof, &self.shifted)
    }
}

/// A profile in range that is at least as large in each number: the full one once in two, the same,
/// or any between.
pub fn larger(rng: &mut Rng, than: Profile) -> Profile {
    match rng.below(4) {
        0 | 1 => FULL,
        2 => than,
        _ => between(rng, than),
    }
}

/// A profile in range, the full one once in two.
pub fn right(rng: &mut Rng) -> Profile {
    if rng.once_in(2) {
        FULL
    } else {
        between(rng, LEAST)
    }
}

/// A profile from the least one to the full one, in each number at the ends as often as between.
fn between(rng: &mut Rng, least: Profile) -> Profile {
    let mut number = |least, most| {
        let any = within(rng, least, most);
        rng.pick(&[least, any, most])
    };
    Profile {
        exponent: number(least.exponent, FULL.exponent),
        weight: number(least.weight, FULL.weight),
        rows: number(least.rows, FULL.rows),
    }
}

/// The profile with one number out of range, or with all, by one and by more.
pub fn wrong(rng: &mut Rng, right: Profile) -> Profile {
    let mut past = |most| {
        let any = within(rng, most + 1, u32::MAX);
        rng.pick(&[most + 1, any, 1 << 31, u32::MAX])
    };
    let wrong =
        Profile { exponent: past(FULL.exponent), weight: past(FULL.weight), rows: past(FULL.rows) };
    match rng.below(5) {
        0 => Profile { exponent: wrong.exponent, ..right },
        1 => Profile { weight: 0, ..right },
        2 => Profile { weight: wrong.weight, ..right },
        3 => Profile { rows: wrong.rows, ..right },
        _ => wrong,
    }
}

fn within(rng: &mut Rng, least: u32, most: u32) -> u32 {
    rng.within(least.into()..=most.into()) as u32
}
