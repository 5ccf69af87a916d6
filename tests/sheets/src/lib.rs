//! Builder of claims, proofs and limits in bytes, and the sheets that tests are made of.
//!
//! `worked`, `masked`, `posts` and `papers` hold sheets with the text the program prints for them,
//! `limited` those with limits and what a check says of them, `pages` pages of some of them,
//! `profiles` sheets under profiles, `listings` sheets and profiles as text, `table` the examples of
//! the table of refusals, `searches` searches with what they find, `random` the generators. `texts`
//! has the examples as text, with the weights of some in `decimals`.

mod decimals;
pub mod limited;
pub mod limits;
pub mod listings;
pub mod masked;
pub mod pages;
pub mod papers;
pub mod posts;
pub mod profiles;
pub mod random;
pub mod searches;
pub mod table;
pub mod texts;
pub mod worked;

pub use limits::{Limit, Limits};
pub use site::Profile;

/// A point: its exponents.
pub type Point = Vec<u8>;

/// The greatest weight under any profile, and the greatest coefficient and floor under all.
pub const MOST: i32 = 1 << 30;

/// A claim has at most so many terms.
pub const MOST_TERMS: usize = 64;

/// The length of a page.
pub const PAGE_LENGTH: usize = 2920;

/// Bit i of the mask says that variable i is never negative.
pub fn is_masked(mask: u8, variable: usize) -> bool {
    mask >> variable & 1 == 1
}

/// Every odd exponent is of a masked variable.
fn keeps_sign(mask: u8, point: &Point) -> bool {
    let mut exponents = point.iter().enumerate();
    exponents.all(|(variable, exponent)| exponent % 2 == 0 || is_masked(mask, variable))
}

/// A claim to be written as a sheet. Nothing in it has to be right.
#[derive(Clone, Debug)]
pub struct Claim {
    pub n: u8,
    pub mask: u8,
    pub floor: i32,
    pub terms: Vec<(Point, i32)>,
}

/// A row of a proof: two points and the weights p, q, r.
#[derive(Clone, Debug)]
pub struct Row<Weight = i32> {
    pub v: Point,
    pub w: Point,
    pub weights: [Weight; 3],
}

/// A proof to be written as a sheet. Nothing in it has to be right.
#[derive(Clone, Debug)]
pub struct Proof {
    pub n: u8,
    pub scale: u32,
    pub rows: Vec<Row>,
}

/// A claim and its proof with the text the program prints for them.
pub struct Example {
    pub name: &'static str,
    pub claim: Claim,
    pub proof: Proof,
    pub text: &'static str,
}

/// What one test hands to the check (three sheets, a profile and an output of `room` bytes), to the
/// check with a page (the same, and a page buffer of `page` bytes), to an evaluation (the claim,
/// the profile and the offsets), to a search (as to the check, and floors from `lo` to `hi`) and to
/// the texts (a sheet or the profile, and a buffer with `spare` bytes more than the text has, or
/// with fewer where that is negative). The program is given the claim and the proof alone.
#[derive(Clone, Debug)]
pub struct Case {
    pub claim: Vec<u8>,
    pub proof: Vec<u8>,
    pub limits: Vec<u8>,
    pub profile: Profile,
    pub room: usize,
    pub page: usize,
    pub offsets: Vec<i32>,
    pub lo: i64,
    pub hi: i64,
    pub spare: isize,
}

impl Claim {
    /// A claim whose points have `N` exponents, with no variable masked.
    pub fn new<const N: usize>(floor: i32, terms: &[([u8; N], i32)]) -> Claim {
        let terms = terms.iter().map(|(point, c)| (point.to_vec(), *c)).collect();
        Claim { n: N as u8, mask: 0, floor, terms }
    }

    /// The claim with a mask.
    pub fn masked(self, mask: u8) -> Claim {
        Claim { mask, ..self }
    }

    pub fn bytes(&self) -> Vec<u8> {
        let mut bytes = vec![self.n, self.terms.len() as u8, self.mask, 0];
        bytes.extend(self.floor.to_le_bytes());
        bytes.extend(self.terms.iter().flat_map(|(point, _)| point));
        bytes.extend(self.terms.iter().flat_map(|(_, coefficient)| coefficient.to_le_bytes()));
        bytes
    }
}

impl<Weight: Copy> Row<Weight> {
    pub fn is_lone(&self) -> bool {
        self.v == self.w
    }

    /// The point halfway between the ends, where it is whole.
    pub fn midpoint(&self) -> Option<Point> {
        let half = |(a, b): (&u8, &u8)| (a % 2 == b % 2).then_some(a.midpoint(*b));
        self.v.iter().zip(&self.w).map(half).collect()
    }

    /// The row's slots, each a point and a weight: p for a lone row, else p, q and r.
    pub fn slots(&self) -> Vec<(Point, Weight)> {
        let [p, q, r] = self.weights;
        match self.midpoint() {
            Some(u) if !self.is_lone() => vec![(self.v.clone(), p), (self.w.clone(), q), (u, r)],
            _ => vec![(self.v.clone(), p)],
        }
    }
}

impl Proof {
    /// A proof whose points have `N` exponents.
    pub fn new<const N: usize>(scale: u32, rows: &[([u8; N], [u8; N], [i32; 3])]) -> Proof {
        let row = |(v, w, weights): &([u8; N], [u8; N], [i32; 3])| Row {
            v: v.to_vec(),
            w: w.to_vec(),
            weights: *weights,
        };
        Proof { n: N as u8, scale, rows: rows.iter().map(row).collect() }
    }

    pub fn bytes(&self) -> Vec<u8> {
        let mut bytes = vec![self.n, 0];
        bytes.extend((self.rows.len() as u16).to_le_bytes());
        bytes.extend(self.scale.to_le_bytes());
        bytes.extend(self.rows.iter().flat_map(|row| row.v.iter().chain(&row.w)));
        bytes.extend(self.rows.iter().flat_map(|row| row.weights).flat_map(i32::to_le_bytes));
        bytes
    }
}

/// Every example that the program reads: the worked sheets, those with masks, the one of many rows,
/// the posts, the papers.
pub fn examples() -> Vec<Example> {
    let all = [
        worked::examples(),
        masked::examples(),
        vec![pages::forty_rows()],
        posts::examples(),
        papers::examples(),
    ];
    all.into_iter().flatten().collect()
}

impl Example {
    /// The program's input: the claim and directly after it the proof.
    pub fn input(&self) -> Vec<u8> {
        [self.claim.bytes(), self.proof.bytes()].concat()
    }
}

impl Case {
    /// A check with no variable limited, the full profile, an output as long as the proof and a
    /// page of the right length, an evaluation at zeros, a search among the claim's own floor
    /// alone, and buffers as long as their texts.
    pub fn new(claim: &Claim, proof: &Proof) -> Case {
        let (floor, offsets) = (claim.floor.into(), vec![0; claim.n.into()]);
        let limits = Limits::none(claim.n).bytes();
        let (claim, proof) = (claim.bytes(), proof.bytes());
        let (profile, room, page) = (Profile::FULL, proof.len(), PAGE_LENGTH);
        let (lo, hi, spare) = (floor, floor, 0);
        Case { claim, proof, limits, profile, room, page, offsets, lo, hi, spare }
    }

    /// The case with limits.
    pub fn limited(self, limits: &Limits) -> Case {
        Case { limits: limits.bytes(), ..self }
    }

    /// The case under a profile.
    pub fn under(self, profile: Profile) -> Case {
        Case { profile, ..self }
    }

    /// The program's input: the claim and directly after it the proof.
    pub fn input(&self) -> Vec<u8> {
        [&self.claim[..], &self.proof].concat()
    }

    /// The length of the buffer for a text; one that is refused counts as 100 bytes.
    pub fn text_room<Refusal>(&self, text: &Result<String, Refusal>) -> usize {
        text.as_ref().map_or(100, String::len).saturating_add_signed(self.spare)
    }
}
