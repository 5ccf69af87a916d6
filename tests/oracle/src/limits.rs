//! The limits sheet of document 02's note 4: refusals 24 and 25, and what limits do to targets.

use crate::evaluate::power;
use crate::verdict::{refuse_at, refuse_if, Refusal};
use crate::{words, Integer, Point};

/// What the sheet says of a variable; with power 0 the variable is unlimited.
pub struct Limit {
    pub power: u8,
    pub limit: u16,
    pub multiplier: u32,
}

/// The limits of a claim's variables, in their order. Without any, no variable is limited.
#[derive(Default)]
pub struct Limits(Vec<Limit>);

/// What the limit of a variable does: the target at the pure power rises by the multiplier, and the
/// constant's falls by the multiplier times that power of the limit.
pub struct Added {
    pub variable: usize,
    pub pure_power: Point,
    pub rise: Integer,
    pub fall: Integer,
}

impl Limit {
    /// The power is 0, 2 or 4. With power 0 limit and multiplier are 0; else the limit is from 1 to
    /// 1,023 and the multiplier at most 65,536.
    fn is_right(&self) -> bool {
        match self.power {
            0 => self.limit == 0 && self.multiplier == 0,
            2 | 4 => (1..=1023).contains(&self.limit) && self.multiplier <= 65_536,
            _ => false,
        }
    }
}

impl Limits {
    /// The variables that are limited, with their limits.
    pub fn limited(&self) -> impl Iterator<Item = (usize, &Limit)> {
        self.0.iter().enumerate().filter(|(_, limit)| limit.power > 0)
    }

    /// What each limited variable's limit does to the targets.
    pub fn added(&self) -> impl Iterator<Item = Added> + '_ {
        self.limited().map(|(variable, limit)| {
            let mut pure_power = vec![0; self.0.len()];
            pure_power[variable] = limit.power;
            let rise = Integer::from(limit.multiplier);
            let fall = &rise * &power(&Integer::from(u32::from(limit.limit)), limit.power);
            Added { variable, pure_power, rise, fall }
        })
    }
}

/// The limits in the sheet, for a claim of `n` variables.
pub fn read(bytes: &[u8], n: usize) -> Result<Limits, Refusal> {
    refuse_if(24, bytes.len() != 1 + 7 * n || usize::from(bytes[0]) != n)?;
    let (entries, multipliers) = bytes[1..].split_at(3 * n);
    let limit = |(entry, multiplier): (&[u8], i32)| Limit {
        power: entry[0],
        limit: u16::from_le_bytes([entry[1], entry[2]]),
        multiplier: multiplier as u32,
    };
    let limits: Vec<Limit> = entries.chunks_exact(3).zip(words(multipliers)).map(limit).collect();
    refuse_at(25, limits.iter().position(|limit| !limit.is_right()))?;
    Ok(Limits(limits))
}
