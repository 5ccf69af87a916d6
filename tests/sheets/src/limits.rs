//! Limits sheets in bytes, and what limits add to targets.

use crate::Point;
use std::collections::BTreeMap;

/// What a limits sheet says of a variable: it stays within ±`limit`, shown by a power and a
/// multiplier. With power 0 it is unlimited, and then the others are 0 as well.
#[derive(Clone, Copy, Debug, Default, PartialEq, Eq)]
pub struct Limit {
    pub power: u8,
    pub limit: u16,
    pub multiplier: u32,
}

/// A limits sheet: n and an entry for each variable. Nothing in it has to be right.
#[derive(Clone, Debug, PartialEq, Eq)]
pub struct Limits {
    pub n: u8,
    pub entries: Vec<Limit>,
}

impl Limit {
    pub const UNLIMITED: Limit = Limit::new(0, 0, 0);

    pub const fn new(power: u8, limit: u16, multiplier: u32) -> Limit {
        Limit { power, limit, multiplier }
    }

    pub fn is_limited(&self) -> bool {
        self.power > 0
    }

    /// The multiplier times the limit's power.
    fn fall(&self) -> i64 {
        i64::from(self.multiplier) * i64::from(self.limit).pow(self.power.into())
    }
}

impl Limits {
    pub fn new(entries: &[Limit]) -> Limits {
        Limits { n: entries.len() as u8, entries: entries.to_vec() }
    }

    /// No variable of `n` is limited.
    pub fn none(n: u8) -> Limits {
        Limits { n, entries: vec![Limit::UNLIMITED; n.into()] }
    }

    pub fn bytes(&self) -> Vec<u8> {
        let mut bytes = vec![self.n];
        for entry in &self.entries {
            bytes.push(entry.power);
            bytes.extend(entry.limit.to_le_bytes());
        }
        bytes.extend(self.entries.iter().flat_map(|entry| entry.multiplier.to_le_bytes()));
        bytes
    }

    /// The variables that are limited, with their limits.
    pub fn limited(&self) -> impl Iterator<Item = (usize, &Limit)> {
        self.entries.iter().enumerate().filter(|(_, entry)| entry.is_limited())
    }

    /// The point of a power of one variable alone.
    pub fn pure_power(&self, variable: usize, power: u8) -> Point {
        let mut point = vec![0; self.entries.len()];
        point[variable] = power;
        point
    }

    /// What right limits add to the targets: the multipliers at the pure powers, and at the
    /// constant less than nothing.
    pub fn added(&self) -> BTreeMap<Point, i64> {
        let mut added = BTreeMap::new();
        for (variable, entry) in self.limited() {
            added.insert(self.pure_power(variable, entry.power), entry.multiplier.into());
            *added.entry(self.pure_power(variable, 0)).or_default() -= entry.fall();
        }
        added
    }
}
