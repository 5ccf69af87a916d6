//! The examples in document 01's table of refusals, and those of the numbers that requests added.

use crate::worked::{power_claim, square_case, square_claim, square_proof};
use crate::{Case, Claim, Limit, Limits, Profile, Proof, MOST, PAGE_LENGTH};
use refusals::{rule, EntryPoint};

/// An example of the table: what is refused, and the number and index it is refused by.
pub struct Entry {
    pub number: u32,
    pub index: usize,
    pub case: Case,
}

impl Entry {
    /// The entry points that say the number and can be shown the example: for 3 the program takes
    /// the ninth byte for the proof's.
    pub fn entry_points(&self) -> impl Iterator<Item = EntryPoint> {
        let rule = rule(self.number);
        let is_shown = |at: &EntryPoint| *at != EntryPoint::Program || rule.number != 3;
        rule.entry_points.iter().copied().filter(is_shown)
    }
}

/// Square with another claim.
fn square_with_claim(claim: Claim) -> Case {
    Case::new(&claim, &square_proof())
}

/// Square with another proof.
fn square_with_proof(proof: Proof) -> Case {
    Case::new(&square_claim(0, -2), &proof)
}

/// Square with other rows.
fn square_with_row(v: u8, w: u8, weights: [i32; 3]) -> Case {
    square_with_proof(Proof::new(1, &[([v], [w], weights)]))
}

/// One term with one lone row at its point.
fn lone(point: u8, coefficient: i32, scale: u32) -> Case {
    let claim = Claim::new(0, &[([point], coefficient)]);
    Case::new(&claim, &Proof::new(scale, &[([point], [point], [0, 0, 0])]))
}

/// A sheet without terms or rows, and one byte after it.
fn with_ninth_byte(mut bytes: Vec<u8>) -> Vec<u8> {
    bytes.push(0);
    bytes
}

/// The examples, each with its number and index.
pub fn entries() -> Vec<Entry> {
    let no_terms = Claim::new::<1>(0, &[]);
    let no_rows = Proof::new::<1>(1, &[]);
    let third_power = Limits::new(&[Limit::new(3, 1, 1)]);
    let no_weight = Profile { weight: 0, ..Profile::FULL };
    let cases = [
        (1, 0, Case { claim: vec![], proof: vec![], ..square_case() }),
        (2, 0, square_with_claim(Claim::new::<0>(0, &[]))),
        (3, 0, Case { claim: with_ninth_byte(no_terms.bytes()), ..square_case() }),
        (4, 0, square_with_claim(square_claim(MOST + 1, -2))),
        (5, 1, square_with_claim(square_claim(0, 0))),
        (6, 2, square_with_claim(Claim::new(0, &[([0], 1), ([1], -2), ([121], 1)]))),
        (7, 1, square_with_claim(Claim::new(0, &[([2], 1), ([2], 1)]))),
        (8, 0, Case { proof: square_proof().bytes()[..7].to_vec(), ..square_case() }),
        (9, 0, square_with_proof(Proof { scale: 0, ..square_proof() })),
        (10, 0, Case { proof: with_ninth_byte(no_rows.bytes()), ..square_case() }),
        (11, 0, Case { room: 21, ..square_case() }),
        (12, 0, square_with_row(0, 121, [1, 1, -2])),
        (13, 0, square_with_row(0, 1, [1, 1, -2])),
        (14, 0, square_with_row(1, 1, [1, 1, 0])),
        (15, 0, square_with_row(0, 2, [1, 1, MOST + 1])),
        (16, 0, square_with_proof(no_rows)),
        (17, 0, lone(2, MOST, 2)),
        (18, 0, lone(1, 1, 1)),
        (19, 0, square_with_claim(square_claim(1, -2))),
        (20, 0, Case { offsets: vec![1, 1], ..square_case() }),
        (21, 0, Case { claim: power_claim(57).bytes(), offsets: vec![2], ..square_case() }),
        (22, 0, Case { lo: 1, hi: 0, ..square_case() }),
        (23, 0, Case { lo: -4, hi: -1, ..lone(0, MOST, 1) }),
        (24, 0, Case { limits: vec![], room: 21, ..square_case() }),
        (25, 0, Case { room: 21, ..square_case().limited(&third_power) }),
        (26, 0, Case { claim: vec![], page: PAGE_LENGTH - 1, ..square_case().under(no_weight) }),
        (27, 0, Case { claim: vec![], ..square_case().under(no_weight) }),
        (30, 0, Case { spare: -1, ..square_case() }),
    ];
    cases.into_iter().map(|(number, index, case)| Entry { number, index, case }).collect()
}
