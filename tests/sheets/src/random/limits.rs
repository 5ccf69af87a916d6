//! Random limits: of plans, at the ends of what they may be, and past them.

use super::Rng;
use crate::{Limit, Limits};

/// The greatest limit and the greatest multiplier.
const MOST_LIMIT: i64 = 1023;
const MOST_MULTIPLIER: i64 = 65_536;

/// Limits for a plan: none of its `n` variables, all of them, or any.
pub fn planned(rng: &mut Rng, n: usize, scale: u32) -> Limits {
    // Once in so many a variable is limited.
    let times = rng.pick(&[0, 0, 1, 2]);
    let entry = |_| {
        if times > 0 && rng.once_in(times) {
            fitting(rng, (i64::from(scale) << 30) / n as i64)
        } else {
            Limit::UNLIMITED
        }
    };
    Limits::new(&(0..n).map(entry).collect::<Vec<Limit>>())
}

/// A limit by which the constant's target falls by at most `most`, so that a claim can make up for
/// it. Once in six the multiplier is 0, and more often where the limit leaves room for no other.
fn fitting(rng: &mut Rng, most: i64) -> Limit {
    let (power, limit) = (rng.pick(&[2, 4]), limit(rng));
    let most = (most / i64::from(limit).pow(power)).min(MOST_MULTIPLIER);
    let any = rng.within(0..=most);
    let multiplier = rng.pick(&[0, most.min(1), most, any, any >> 8, any >> 12]);
    Limit::new(power as u8, limit, multiplier as u32)
}

/// A right limit, at the ends of one byte and of all its values as often as between them.
fn limit(rng: &mut Rng) -> u16 {
    let any = rng.within(1..=MOST_LIMIT);
    rng.pick(&[1, 1, 2, 2, 3, 10, any, 255, 256, 257, MOST_LIMIT]) as u16
}

/// Right limits of `n` variables: one of them any, and all the others at their greatest or
/// unlimited.
pub fn right(rng: &mut Rng, n: usize) -> Limits {
    let most = Limit::new(4, MOST_LIMIT as u16, MOST_MULTIPLIER as u32);
    let mut limits = Limits::new(&vec![rng.pick(&[most, Limit::UNLIMITED]); n]);
    limits.entries[rng.below(n)] = any_right(rng);
    limits
}

fn any_right(rng: &mut Rng) -> Limit {
    let any = rng.within(0..=MOST_MULTIPLIER);
    let multiplier = rng.pick(&[0, 1, any, MOST_MULTIPLIER]) as u32;
    Limit::new(rng.pick(&[2, 4]), limit(rng), multiplier)
}

/// An entry with one field wrong, by one as often as by more.
pub fn wrong(rng: &mut Rng) -> Limit {
    let right = any_right(rng);
    let past_limit = rng.within(MOST_LIMIT + 1..=u16::MAX.into()) as u16;
    let past_multiplier = rng.within(MOST_MULTIPLIER + 1..=u32::MAX.into()) as u32;
    let power = rng.within(5..=255) as u8;
    match rng.below(6) {
        0 => Limit { power: rng.pick(&[1, 3, 5, power]), ..right },
        1 => Limit { limit: 0, ..right },
        2 => Limit { limit: rng.pick(&[1024, past_limit, u16::MAX]), ..right },
        3 => Limit { multiplier: rng.pick(&[65_537, past_multiplier, u32::MAX]), ..right },
        4 => Limit { limit: rng.pick(&[1, right.limit]), ..Limit::UNLIMITED },
        _ => Limit { multiplier: right.multiplier.max(1), ..Limit::UNLIMITED },
    }
}
