//! Polynomials of the source papers with floors and rows for them.
//!
//! Some weights are given as a solver would round them; the shift makes them add up.

use crate::{Claim, Example, Proof};

pub fn examples() -> Vec<Example> {
    vec![
        five_squares(),
        two_simplices(),
        one_simplex(),
        toy_circuits(),
        newton_polytope(),
        degree_eight(),
        degree_six(),
        dwarfed_square(),
    ]
}

/// Document 000, Example 10: Motzkin's polynomial as five squares. The paper's exponents are
/// thirds; here they are tripled, and the scale takes the halves out of the weights.
fn five_squares() -> Example {
    Example {
        name: "five-squares",
        claim: Claim::new(0, &[([0, 0], 1), ([6, 6], -3), ([6, 12], 1), ([12, 6], 1)]),
        proof: Proof::new(
            2,
            &[
                ([4, 8], [8, 4], [3, 3, -6]),
                ([2, 4], [6, 12], [2, 2, -4]),
                ([0, 0], [4, 8], [1, 1, -2]),
                ([4, 2], [12, 6], [2, 2, -4]),
                ([0, 0], [8, 4], [1, 1, -2]),
            ],
        ),
        text: "accepted rows 5 scale 2 floor 0\n\
            row 0 p 3 q 3 r -6\n\
            row 1 p 2 q 2 r -4\n\
            row 2 p 1 q 1 r -2\n\
            row 3 p 2 q 2 r -4\n\
            row 4 p 1 q 1 r -2\n",
    }
}

/// Document 000, Example 23: two odd terms, each covered by a simplex of its own, with floor 405.
/// The first row's p is proposed one too small.
fn two_simplices() -> Example {
    Example {
        name: "two-simplices",
        claim: Claim::new(
            405,
            &[
                ([0, 0], 800),
                ([0, 4], 3),
                ([1, 2], -100),
                ([2, 1], -100),
                ([4, 0], 1),
                ([4, 4], 50),
            ],
        ),
        proof: Proof::new(
            1,
            &[
                ([0, 0], [4, 2], [227, 11, -100]),
                ([4, 0], [4, 4], [1, 31, -11]),
                ([0, 0], [2, 4], [167, 15, -100]),
                ([0, 4], [4, 4], [3, 19, -15]),
            ],
        ),
        text: "accepted rows 4 scale 1 floor 405\n\
            row 0 p 228 q 11 r -100\n\
            row 1 p 1 q 31 r -11\n\
            row 2 p 167 q 15 r -100\n\
            row 3 p 3 q 19 r -15\n",
    }
}

/// Document 000, Example 25: its bound is near −6.9165, so −7 is the best whole floor. The term
/// of 5xy counts at its worst sign, and the rows at the constant share what they leave of it.
fn one_simplex() -> Example {
    Example {
        name: "one-simplex",
        claim: Claim::new(
            -7,
            &[([0, 0], 1), ([0, 4], 1), ([1, 1], 5), ([1, 2], -1), ([2, 1], -1), ([4, 0], 1)],
        ),
        proof: Proof::new(
            1000,
            &[
                ([0, 0], [2, 2], [6068, 1030, -5000]),
                ([0, 4], [4, 0], [515, 515, -1030]),
                ([0, 4], [2, 0], [323, 774, -1000]),
                ([0, 0], [4, 0], [925, 162, -774]),
                ([4, 0], [0, 2], [323, 774, -1000]),
                ([0, 0], [0, 4], [925, 162, -774]),
            ],
        ),
        text: "accepted rows 6 scale 1000 floor -7\n\
            row 0 p 6096 q 1030 r -5000\n\
            row 1 p 515 q 515 r -1030\n\
            row 2 p 323 q 774 r -1000\n\
            row 3 p 952 q 162 r -774\n\
            row 4 p 323 q 774 r -1000\n\
            row 5 p 952 q 162 r -774\n",
    }
}

/// Document 002, Example 4.5, with its best floor 1: the constant's target is zero and needs no
/// slot, and one term is a lone row.
pub fn toy_circuits() -> Example {
    Example {
        name: "toy-circuits",
        claim: Claim::new(1, &[([0, 0], 1), ([0, 2], 1), ([2, 2], -1), ([2, 6], 1), ([6, 2], 1)]),
        proof: Proof::new(
            1,
            &[
                ([0, 2], [4, 2], [1, 1, -2]),
                ([2, 2], [6, 2], [1, 1, -1]),
                ([2, 6], [2, 6], [1, 0, 0]),
            ],
        ),
        text: "accepted rows 3 scale 1 floor 1\n\
            row 0 p 1 q 1 r -2\n\
            row 1 p 1 q 1 r -1\n\
            row 2 p 1 q 0 r 0\n",
    }
}

/// Document 001, Figure 1, with floor 1: both odd terms have a plus sign that is not kept.
fn newton_polytope() -> Example {
    Example {
        name: "newton-polytope",
        claim: Claim::new(
            1,
            &[([0, 0], 1), ([2, 2], 1), ([2, 5], 1), ([2, 6], 1), ([3, 3], 1), ([6, 4], 1)],
        ),
        proof: Proof::new(
            10,
            &[
                ([2, 4], [2, 6], [4, 7, -10]),
                ([2, 2], [4, 4], [6, 5, -10]),
                ([2, 4], [6, 4], [1, 10, -5]),
                ([2, 2], [2, 6], [4, 3, -5]),
            ],
        ),
        text: "accepted rows 4 scale 10 floor 1\n\
            row 0 p 4 q 7 r -10\n\
            row 1 p 6 q 5 r -10\n\
            row 2 p 1 q 10 r -5\n\
            row 3 p 4 q 3 r -5\n",
    }
}

/// Document 004, Example 4.6, with floor 0: the proposed weights already add up.
fn degree_eight() -> Example {
    Example {
        name: "degree-eight",
        claim: Claim::new(
            0,
            &[
                ([0, 0], 1),
                ([1, 2], -1),
                ([2, 1], -2),
                ([2, 2], 6),
                ([2, 6], 3),
                ([3, 3], -3),
                ([6, 2], 2),
            ],
        ),
        proof: Proof::new(
            10,
            &[
                ([0, 0], [2, 4], [3, 9, -10]),
                ([0, 0], [4, 2], [7, 15, -20]),
                ([2, 2], [2, 6], [5, 24, -9]),
                ([2, 2], [6, 2], [32, 15, -15]),
                ([2, 2], [4, 4], [23, 10, -30]),
                ([2, 6], [6, 2], [6, 5, -10]),
            ],
        ),
        text: "accepted rows 6 scale 10 floor 0\n\
            row 0 p 3 q 9 r -10\n\
            row 1 p 7 q 15 r -20\n\
            row 2 p 5 q 24 r -9\n\
            row 3 p 32 q 15 r -15\n\
            row 4 p 23 q 10 r -30\n\
            row 5 p 6 q 5 r -10\n",
    }
}

/// Document 004, Example 4.7, doubled to be whole: its bound is near −6.22, so −7 is the best
/// whole floor. The lone rows are proposed with nothing and take all of their targets.
fn degree_six() -> Example {
    Example {
        name: "degree-six",
        claim: Claim::new(
            -7,
            &[([0, 0], -6), ([0, 2], -1), ([0, 6], 3), ([4, 0], 1), ([6, 0], 23)],
        ),
        proof: Proof::new(
            1,
            &[
                ([0, 0], [0, 4], [1, 1, -2]),
                ([0, 2], [0, 6], [1, 3, -1]),
                ([4, 0], [4, 0], [0, 0, 0]),
                ([6, 0], [6, 0], [0, 0, 0]),
            ],
        ),
        text: "accepted rows 4 scale 1 floor -7\n\
            row 0 p 1 q 1 r -2\n\
            row 1 p 1 q 3 r -1\n\
            row 2 p 1 q 0 r 0\n\
            row 3 p 23 q 0 r 0\n",
    }
}

/// Document 004, Example 4.10 with c 1, doubled to be whole: its bound is near 3.84. Past it, with
/// floor 4, the constant's target is zero, the first row's p becomes 0 and the row does not hold.
fn dwarfed_square() -> Example {
    Example {
        name: "dwarfed-square",
        claim: Claim::new(
            4,
            &[
                ([0, 0], 4),
                ([0, 4], 4),
                ([1, 1], -2),
                ([2, 4], 1),
                ([3, 1], -2),
                ([4, 0], 4),
                ([4, 2], 2),
            ],
        ),
        proof: Proof::new(
            1,
            &[
                ([0, 0], [2, 2], [1, 1, -2]),
                ([2, 2], [4, 0], [1, 1, -2]),
                ([0, 4], [4, 0], [4, 3, -2]),
                ([2, 4], [2, 4], [1, 0, 0]),
                ([4, 2], [4, 2], [2, 0, 0]),
            ],
        ),
        text: "refused 19 at 0\n",
    }
}
