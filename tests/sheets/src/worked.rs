//! The worked sheets A to J of document 01, and H with two rows exchanged.

use crate::{Case, Claim, Example, Proof};

/// The claim of Square, x² − 2x + 1, with a floor and a coefficient at point 1.
pub fn square_claim(floor: i32, middle: i32) -> Claim {
    Claim::new(floor, &[([0], 1), ([1], middle), ([2], 1)])
}

/// The proof of Square: S 1 and one row 0, 2 weighted 1, 1, −2.
pub fn square_proof() -> Proof {
    Proof::new(1, &[([0], [2], [1, 1, -2])])
}

/// Square as a case.
pub fn square_case() -> Case {
    Case::new(&square_claim(0, -2), &square_proof())
}

/// The program's input for Square, of 45 bytes: the claim, and from byte 23 on the proof.
pub fn square_input() -> Vec<u8> {
    [square_claim(0, -2).bytes(), square_proof().bytes()].concat()
}

/// What the program prints for so many first bytes of Square's input: one byte short of a header,
/// one short of the claim, the claim alone, one short of the whole, and all of it.
pub const SQUARE_CUTS: [(usize, &str); 5] = [
    (7, "refused 1 at 0\n"),
    (22, "refused 3 at 0\n"),
    (23, "refused 8 at 0\n"),
    (44, "refused 10 at 0\n"),
    (45, SQUARE_TEXT),
];

const SQUARE_TEXT: &str = "accepted rows 1 scale 1 floor 0\nrow 0 p 1 q 1 r -2\n";

/// Motzkin's polynomial.
pub fn motzkin_claim() -> Claim {
    Claim::new(0, &[([0, 0], 1), ([2, 2], -3), ([2, 4], 1), ([4, 2], 1)])
}

/// The proof of Motzkin's polynomial with a first cross weight.
pub fn motzkin_proof(first_cross: i32) -> Proof {
    Proof::new(
        1,
        &[
            ([0, 0], [2, 4], [1, 1, first_cross]),
            ([1, 2], [3, 2], [2, 2, -4]),
            ([2, 2], [4, 2], [1, 1, -2]),
        ],
    )
}

/// The same with its first two rows exchanged.
fn motzkin_exchanged(first_cross: i32) -> Proof {
    let mut proof = motzkin_proof(first_cross);
    proof.rows.swap(0, 1);
    proof
}

/// J: 1 at point 56, whose value at offset 2 is 2^56.
pub fn power_claim(exponent: u8) -> Claim {
    Claim::new(0, &[([exponent], 1)])
}

/// The proof of a claim whose only term has coefficient 1: a lone row at the term's point.
pub fn lone_proof<const N: usize>(point: [u8; N]) -> Proof {
    Proof::new(1, &[(point, point, [1, 0, 0])])
}

/// What the program prints for such a claim with floor 0, where its proof is accepted.
pub const LONE_TEXT: &str = "accepted rows 1 scale 1 floor 0\nrow 0 p 1 q 0 r 0\n";

const MOTZKIN_TEXT: &str = "accepted rows 3 scale 1 floor 0\n\
    row 0 p 1 q 1 r -2\n\
    row 1 p 2 q 2 r -4\n\
    row 2 p 1 q 1 r -2\n";

/// D: Square with the floor 1.
pub fn d() -> Example {
    square("D", 1, -2, "refused 19 at 0\n")
}

/// G: Motzkin's polynomial.
pub fn g() -> Example {
    motzkin("G", -2, MOTZKIN_TEXT)
}

fn square(name: &'static str, floor: i32, middle: i32, text: &'static str) -> Example {
    Example { name, claim: square_claim(floor, middle), proof: square_proof(), text }
}

fn motzkin(name: &'static str, first_cross: i32, text: &'static str) -> Example {
    Example { name, claim: motzkin_claim(), proof: motzkin_proof(first_cross), text }
}

/// The worked sheets. J is about an evaluation; its proof, one lone row, lets the program accept
/// it as well.
pub fn examples() -> Vec<Example> {
    let empty = |name, floor, text| Example {
        name,
        claim: Claim::new::<1>(floor, &[]),
        proof: Proof::new::<1>(1, &[]),
        text,
    };
    vec![
        square("A", 0, -2, SQUARE_TEXT),
        square("B", 0, 2, SQUARE_TEXT),
        square("C", -1, -2, "accepted rows 1 scale 1 floor -1\nrow 0 p 2 q 1 r -2\n"),
        d(),
        empty("E", 0, "accepted rows 0 scale 1 floor 0\n"),
        empty("F", 1, "refused 16 at 0\n"),
        empty("F-minus", -1, "refused 16 at 0\n"),
        g(),
        motzkin("H", -3, MOTZKIN_TEXT),
        Example {
            name: "H-exchanged",
            claim: motzkin_claim(),
            proof: motzkin_exchanged(-3),
            text: "refused 19 at 1\n",
        },
        motzkin("I", -1, "refused 19 at 1\n"),
        Example { name: "J", claim: power_claim(56), proof: lone_proof([56]), text: LONE_TEXT },
    ]
}
