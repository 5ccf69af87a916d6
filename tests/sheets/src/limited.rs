//! Claims within limits, note 4 of document 02: some that need their limits, with the best floors
//! that their rows carry, one of them with a mask, and what a check says of them.

use crate::worked::lone_proof;
use crate::{Case, Claim, Example, Limit, Limits, Proof};

/// An example with limits. The program limits no variable, so the text is what it would print for
/// the verdict of a check with these limits.
pub struct LimitedExample {
    pub example: Example,
    pub limits: Limits,
}

impl LimitedExample {
    pub fn case(&self) -> Case {
        Case::new(&self.example.claim, &self.example.proof).limited(&self.limits)
    }
}

pub fn examples() -> Vec<LimitedExample> {
    vec![
        minus_square(),
        line(),
        line_by_fourth_power(),
        cube(),
        product(),
        added_point(),
        parabola("parabola-masked-limited", 1, PARABOLA_TEXT),
        parabola("parabola-limited", 0, "refused 18 at 0\n"),
    ]
}

fn limited(
    name: &'static str,
    claim: Claim,
    limits: &[Limit],
    proof: Proof,
    text: &'static str,
) -> LimitedExample {
    LimitedExample { example: Example { name, claim, proof, text }, limits: Limits::new(limits) }
}

/// −x² with the floor −9.
pub fn minus_square_claim() -> Claim {
    Claim::new(-9, &[([2], -1)])
}

/// −x² where x is within ±3: what the limit takes off is −x² + 9 itself, and no row is needed. At 4
/// the value is −16, which the floor does not rule out.
pub fn minus_square() -> LimitedExample {
    limited(
        "minus-square-limited",
        minus_square_claim(),
        &[Limit::new(2, 3, 1)],
        Proof::new::<1>(1, &[]),
        "accepted rows 0 scale 1 floor -9\n",
    )
}

/// x where x is within ±5: 10 × (x + 5) is at least (25 − x²) + (5 − |x|)².
pub fn line() -> LimitedExample {
    limited(
        "line-limited",
        Claim::new(-5, &[([1], 1)]),
        &[Limit::new(2, 5, 1)],
        Proof::new(10, &[([0], [2], [25, 1, -10])]),
        "accepted rows 1 scale 10 floor -5\nrow 0 p 25 q 1 r -10\n",
    )
}

/// x where x is within ±2, by the fourth power: 32 × (x + 2) is at least
/// (16 − x⁴) + 8 × (2 − |x|)² + (4 − x²)².
fn line_by_fourth_power() -> LimitedExample {
    limited(
        "line-limited-4",
        Claim::new(-2, &[([1], 1)]),
        &[Limit::new(4, 2, 1)],
        Proof::new(32, &[([0], [2], [32, 8, -32]), ([0], [4], [16, 1, -8])]),
        "accepted rows 2 scale 32 floor -2\nrow 0 p 32 q 8 r -32\nrow 1 p 16 q 1 r -8\n",
    )
}

/// x³ where x is within ±2: 8 × (x³ + 8) is at least
/// 3 × (16 − x⁴) + 2 × (2|x| − x²)² + (4 − x²)². The first row's q is proposed one too small.
fn cube() -> LimitedExample {
    limited(
        "cube-limited",
        Claim::new(-8, &[([3], 1)]),
        &[Limit::new(4, 2, 3)],
        Proof::new(8, &[([2], [4], [8, 1, -8]), ([0], [4], [16, 1, -8])]),
        "accepted rows 2 scale 8 floor -8\nrow 0 p 8 q 2 r -8\nrow 1 p 16 q 1 r -8\n",
    )
}

/// xy where both are within ±10: 2 × (xy + 100) is at least (100 − x²) + (100 − y²) + (|x| − |y|)².
/// The limits take all of the constant's target, which needs no slot.
fn product() -> LimitedExample {
    limited(
        "product-limited",
        Claim::new(-100, &[([1, 1], 1)]),
        &[Limit::new(2, 10, 1); 2],
        Proof::new(2, &[([0, 2], [2, 0], [1, 1, -2])]),
        "accepted rows 1 scale 2 floor -100\nrow 0 p 1 q 1 r -2\n",
    )
}

/// No terms, and the second variable within ±1: its limit adds a target at y², which no row holds.
fn added_point() -> LimitedExample {
    limited(
        "added-point-limited",
        Claim::new::<2>(0, &[]),
        &[Limit::UNLIMITED, Limit::new(2, 1, 1)],
        lone_proof([0, 0]),
        "refused 16 at 2\n",
    )
}

/// x − x² with the floor −9 and a mask.
pub fn parabola_claim(mask: u8) -> Claim {
    Claim::new(-9, &[([1], 1), ([2], -1)]).masked(mask)
}

const PARABOLA_TEXT: &str = "accepted rows 1 scale 1 floor -9\nrow 0 p 1 q 0 r 0\n";

/// x − x² where x is within ±3: what the limit takes off leaves x, which a lone row carries if x is
/// masked. If it is not, the floor is not true: at −3 the value is −12.
fn parabola(name: &'static str, mask: u8, text: &'static str) -> LimitedExample {
    limited(name, parabola_claim(mask), &[Limit::new(2, 3, 1)], lone_proof([1]), text)
}
