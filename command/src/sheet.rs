//! The fields of the three sheets, their bytes and their words. Nothing in them has to be right:
//! the library alone judges bytes.

use std::fmt::{self, Display};

/// A point: its exponents.
pub type Point = Vec<u8>;

#[derive(Clone, Debug, PartialEq, Eq)]
pub struct Claim {
    pub n: u8,
    pub mask: u8,
    pub floor: i32,
    pub terms: Vec<Term>,
}

#[derive(Clone, Debug, PartialEq, Eq)]
pub struct Term {
    pub point: Point,
    pub coefficient: i32,
}

#[derive(Clone, Debug, PartialEq, Eq)]
pub struct Proof {
    pub n: u8,
    pub scale: u32,
    pub rows: Vec<Row>,
}

/// A row: its two ends and the weights p, q and r.
#[derive(Clone, Debug, PartialEq, Eq)]
pub struct Row {
    pub v: Point,
    pub w: Point,
    pub weights: [i32; 3],
}

#[derive(Clone, Debug, PartialEq, Eq)]
pub struct Limits {
    pub entries: Vec<Limit>,
}

/// What the limits say of a variable; with power 0 it is unlimited.
#[derive(Clone, Copy, Debug, Default, PartialEq, Eq)]
pub struct Limit {
    pub power: u8,
    pub limit: u16,
    pub multiplier: u32,
}

/// Bytes, read field by field from the front.
struct Fields<'a>(&'a [u8]);

impl<'a> Fields<'a> {
    fn take(&mut self, count: usize) -> Option<&'a [u8]> {
        let (taken, rest) = self.0.split_at_checked(count)?;
        self.0 = rest;
        Some(taken)
    }

    fn number<const N: usize>(&mut self) -> Option<[u8; N]> {
        self.take(N)?.try_into().ok()
    }

    fn byte(&mut self) -> Option<u8> {
        self.number().map(u8::from_le_bytes)
    }

    fn word(&mut self) -> Option<u32> {
        self.number().map(u32::from_le_bytes)
    }

    fn signed(&mut self) -> Option<i32> {
        self.number().map(i32::from_le_bytes)
    }

    fn point(&mut self, n: u8) -> Option<Point> {
        self.take(n.into()).map(<[u8]>::to_vec)
    }
}

impl Claim {
    /// The fields of a claim whose length is the one that its n and t say.
    pub fn read(bytes: &[u8]) -> Option<Claim> {
        let mut fields = Fields(bytes);
        let [n, t, mask, _] = fields.number()?;
        let floor = fields.signed()?;
        let points: Option<Vec<Point>> = (0..t).map(|_| fields.point(n)).collect();
        let term = |point| Some(Term { point, coefficient: fields.signed()? });
        let terms: Option<Vec<Term>> = points?.into_iter().map(term).collect();
        let claim = Claim { n, mask, floor, terms: terms? };
        fields.0.is_empty().then_some(claim)
    }

    /// The claim's bytes; it has at most 255 terms.
    pub fn bytes(&self) -> Vec<u8> {
        let mut bytes = vec![self.n, self.terms.len() as u8, self.mask, 0];
        bytes.extend(self.floor.to_le_bytes());
        bytes.extend(self.terms.iter().flat_map(|term| &term.point));
        bytes.extend(self.terms.iter().flat_map(|term| term.coefficient.to_le_bytes()));
        bytes
    }

    /// The length of a claim by the first two bytes, where it has them.
    pub fn length(bytes: &[u8]) -> Option<usize> {
        let [n, t] = Fields(bytes).number()?;
        Some(8 + usize::from(t) * (usize::from(n) + 4))
    }

    /// The constant's point.
    pub fn origin(&self) -> Point {
        vec![0; self.n.into()]
    }

    /// The coefficient at a point, 0 where there is no term.
    pub fn coefficient(&self, point: &Point) -> i32 {
        let term = self.terms.iter().find(|term| term.point == *point);
        term.map_or(0, |term| term.coefficient)
    }

    /// The mask says that the variable is never negative.
    pub fn is_masked(&self, variable: usize) -> bool {
        variable < 8 && self.mask >> variable & 1 == 1
    }

    /// A variable, with what the mask says of it.
    pub fn named(&self, variable: usize) -> String {
        let sign = if self.is_masked(variable) { ", which is never negative" } else { "" };
        format!("variable {variable}{sign}")
    }

    /// The variables with an odd exponent that may be negative.
    pub fn odd_unmasked(&self, point: &Point) -> Vec<usize> {
        let is_odd = |&variable: &usize| point[variable] % 2 == 1;
        (0..point.len()).filter(is_odd).filter(|&variable| !self.is_masked(variable)).collect()
    }
}

impl Proof {
    /// The fields of a proof whose length is the one that its n and k say.
    pub fn read(bytes: &[u8]) -> Option<Proof> {
        let mut fields = Fields(bytes);
        let [n, _] = fields.number()?;
        let k = fields.number().map(u16::from_le_bytes)?;
        let scale = fields.word()?;
        let ends = (0..k).map(|_| Some((fields.point(n)?, fields.point(n)?)));
        let ends: Option<Vec<(Point, Point)>> = ends.collect();
        let row = |(v, w)| {
            let weights = [fields.signed()?, fields.signed()?, fields.signed()?];
            Some(Row { v, w, weights })
        };
        let rows: Option<Vec<Row>> = ends?.into_iter().map(row).collect();
        let proof = Proof { n, scale, rows: rows? };
        fields.0.is_empty().then_some(proof)
    }

    /// The proof's bytes; it has at most 65,535 rows.
    pub fn bytes(&self) -> Vec<u8> {
        let mut bytes = vec![self.n, 0];
        bytes.extend((self.rows.len() as u16).to_le_bytes());
        bytes.extend(self.scale.to_le_bytes());
        bytes.extend(self.rows.iter().flat_map(|row| row.v.iter().chain(&row.w)));
        bytes.extend(self.rows.iter().flat_map(|row| row.weights).flat_map(i32::to_le_bytes));
        bytes
    }

    /// The length of a proof by its first four bytes, where it has them.
    pub fn length(bytes: &[u8]) -> Option<usize> {
        let [n, _, low, high] = Fields(bytes).number()?;
        let k = u16::from_le_bytes([low, high]);
        Some(8 + usize::from(k) * (2 * usize::from(n) + 12))
    }
}

impl Row {
    pub fn is_lone(&self) -> bool {
        self.v == self.w
    }

    /// The points of the row's slots, in the order of its weights, for a row that has a whole
    /// midpoint.
    pub fn slots(&self) -> Vec<Point> {
        if self.is_lone() {
            return vec![self.v.clone()];
        }
        let midpoint = self.v.iter().zip(&self.w).map(|(&a, &b)| a.midpoint(b)).collect();
        vec![self.v.clone(), self.w.clone(), midpoint]
    }
}

impl Limits {
    /// No variable of `n` is limited.
    pub fn none(n: u8) -> Limits {
        Limits { entries: vec![Limit::default(); n.into()] }
    }

    /// The fields of limits whose length is the one that their n says.
    pub fn read(bytes: &[u8]) -> Option<Limits> {
        let mut fields = Fields(bytes);
        let n = fields.byte()?;
        let entry = |_| Some((fields.byte()?, fields.number().map(u16::from_le_bytes)?));
        let entries: Option<Vec<(u8, u16)>> = (0..n).map(entry).collect();
        let limit = |(power, limit)| Some(Limit { power, limit, multiplier: fields.word()? });
        let entries: Option<Vec<Limit>> = entries?.into_iter().map(limit).collect();
        let limits = Limits { entries: entries? };
        fields.0.is_empty().then_some(limits)
    }

    /// The limits' bytes; they have at most 255 variables.
    pub fn bytes(&self) -> Vec<u8> {
        let mut bytes = vec![self.entries.len() as u8];
        for Limit { power, limit, .. } in &self.entries {
            bytes.push(*power);
            bytes.extend(limit.to_le_bytes());
        }
        bytes.extend(self.entries.iter().flat_map(|entry| entry.multiplier.to_le_bytes()));
        bytes
    }

    /// The length of limits by their first byte, where they have it.
    pub fn length(bytes: &[u8]) -> Option<usize> {
        bytes.first().map(|&n| 1 + 7 * usize::from(n))
    }
}

/// A point as it stands in a text.
struct Exponents<'a>(&'a Point);

impl Display for Exponents<'_> {
    fn fmt(&self, f: &mut fmt::Formatter) -> fmt::Result {
        self.0.iter().try_for_each(|exponent| write!(f, " {exponent}"))
    }
}

impl Display for Term {
    fn fmt(&self, f: &mut fmt::Formatter) -> fmt::Result {
        write!(f, "coefficient {} exponents{}", self.coefficient, Exponents(&self.point))
    }
}

/// A row that is not quite a lone one, with q or r, is shown with them.
impl Display for Row {
    fn fmt(&self, f: &mut fmt::Formatter) -> fmt::Result {
        let [p, q, r] = self.weights;
        if self.is_lone() {
            write!(f, "lone v{} p {p}", Exponents(&self.v))?;
        } else {
            write!(f, "pair v{} w{} p {p}", Exponents(&self.v), Exponents(&self.w))?;
        }
        if self.is_lone() && (q, r) == (0, 0) {
            return Ok(());
        }
        write!(f, " q {q} r {r}")
    }
}

impl Display for Limit {
    fn fmt(&self, f: &mut fmt::Formatter) -> fmt::Result {
        let Limit { power, limit, multiplier } = self;
        write!(f, "power {power} limit {limit} multiplier {multiplier}")
    }
}

/// A point in brackets.
pub fn bracketed(point: &Point) -> String {
    let exponents: Vec<String> = point.iter().map(u8::to_string).collect();
    format!("({})", exponents.join(","))
}
