//! Two posts that no trial tells apart: their claims differ in the last digit of one coefficient,
//! and only one of the floors is true.

use crate::{Claim, Example, Proof};

pub fn examples() -> Vec<Example> {
    vec![post_4(), post_9()]
}

/// Post 4: x² − 4000xy + 4,000,000y² = (x − 2000y)², with the floor 0. The solver gave the weights
/// with five digits, and the shift makes the first one 4,000,000 again.
pub fn post_4() -> Example {
    Example {
        name: "post-4",
        claim: claim(4_000_000),
        proof: proof(),
        text: "accepted rows 1 scale 1 floor 0\nrow 0 p 4000000 q 1 r -4000\n",
    }
}

/// Post 9: one less at y², with the same floor and proof. After the shift r × r is 16,000,000,
/// over 4 × p × q = 15,999,996: the polynomial is (x − 2000y)² − y², which is −1 at (2000, 1).
pub fn post_9() -> Example {
    Example { name: "post-9", claim: claim(3_999_999), proof: proof(), text: "refused 19 at 0\n" }
}

fn claim(coefficient: i32) -> Claim {
    Claim::new(0, &[([0, 2], coefficient), ([1, 1], -4000), ([2, 0], 1)])
}

fn proof() -> Proof {
    Proof::new(1, &[([0, 2], [2, 0], [3_999_800, 1, -4000])])
}
