//! Limits sheets with each field at and past what it may be, at each variable, with no variable
//! masked and with all.

use crate::answers;
use harness::report::{equal, Outcome, Report};
use sheets::random::Rng;
use sheets::{Case, Claim, Limit, Limits, Proof, Row, MOST};

pub fn run(report: &mut Report) {
    for n in 1..=8 {
        let mut masks = [0, u8::MAX >> (8 - n)].into_iter();
        let outcome = masks.try_for_each(|mask| are_read(n, mask));
        report.add(&format!("limits of {n} variables"), outcome);
    }
}

fn are_read(n: u8, mask: u8) -> Outcome {
    for variable in 0..n.into() {
        for entry in entries() {
            let mut limits = Limits::none(n);
            limits.entries[variable] = entry;
            let (floor, expected) = expected(&limits, variable);
            let claim = Claim { n, mask, floor, terms: vec![] };
            let case = Case::new(&claim, &at_pure_powers(&limits)).limited(&limits);
            let verdict = answers::check(&case, &mut Rng::new(0))?;
            let refusal = verdict.err().map(|refusal| (refusal.number, refusal.index));
            let what = format!("{entry:?} of variable {variable}, mask {mask:b}");
            equal(&what, &expected, &refusal)?;
        }
    }
    Ok(())
}

/// A floor for a claim without terms, and the number and index that refuse it with the limits: 25
/// where the variable's are wrong, nothing where the floor makes up for them, and 17 at the
/// constant's row where none can.
fn expected(limits: &Limits, variable: usize) -> (i32, Option<(u32, usize)>) {
    if !is_right(&limits.entries[variable]) {
        return (0, Some((25, variable)));
    }
    let fall = limits.added().get(&limits.pure_power(0, 0)).copied().unwrap_or(0);
    match i32::try_from(fall) {
        Ok(floor) if floor >= -MOST => (floor, None),
        _ => (0, Some((17, 0))),
    }
}

fn is_right(entry: &Limit) -> bool {
    match entry.power {
        0 => *entry == Limit::UNLIMITED,
        2 | 4 => (1..=1023).contains(&entry.limit) && entry.multiplier <= 65_536,
        _ => false,
    }
}

/// Entries of a limits sheet, right and wrong ones.
fn entries() -> Vec<Limit> {
    let mut entries = Vec::new();
    for power in [0, 1, 2, 3, 4, 5, 254, 255] {
        for limit in [0, 1, 2, 255, 256, 257, 1023, 1024, u16::MAX] {
            for multiplier in [0, 1, 65_536, 65_537, u32::MAX] {
                entries.push(Limit::new(power, limit, multiplier));
            }
        }
    }
    entries
}

/// A proof of lone rows without weights, the first at the constant, the others at all pure powers.
fn at_pure_powers(limits: &Limits) -> Proof {
    let mut points = vec![limits.pure_power(0, 0)];
    for variable in 0..limits.n.into() {
        points.extend([2, 4].map(|power| limits.pure_power(variable, power)));
    }
    let lone = |point: Vec<u8>| Row { v: point.clone(), w: point, weights: [0; 3] };
    Proof { n: limits.n, scale: 1, rows: points.into_iter().map(lone).collect() }
}
