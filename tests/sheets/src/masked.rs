//! Claims with variables that are never negative, note 3 of document 02.

use crate::worked::{lone_proof, power_claim, square_claim, square_proof, LONE_TEXT};
use crate::{Claim, Example};

/// B with a mask: x² + 2x + 1 with floor 0.
pub fn b_claim(mask: u8) -> Claim {
    square_claim(0, 2).masked(mask)
}

/// The product of `N` variables with floor 0 and a mask.
pub fn product_claim<const N: usize>(mask: u8) -> Claim {
    Claim::new(0, &[([1; N], 1)]).masked(mask)
}

pub fn examples() -> Vec<Example> {
    let b = |name, mask, text| Example { name, claim: b_claim(mask), proof: square_proof(), text };
    let product = |name, mask, text| Example {
        name,
        claim: product_claim::<2>(mask),
        proof: lone_proof([1, 1]),
        text,
    };
    vec![
        b("B-masked", 1, "accepted rows 1 scale 1 floor 0\nrow 0 p 1 q 1 r 2\n"),
        b("B-masked-past", 2, "refused 2 at 0\n"),
        product("product-masked", 3, LONE_TEXT),
        product("product-half-masked", 1, "refused 18 at 0\n"),
        cube(),
        Example {
            name: "eight-masked",
            claim: product_claim::<8>(255),
            proof: lone_proof([1; 8]),
            text: LONE_TEXT,
        },
    ]
}

/// x³ with its variable masked and floor 0: at −2 the value is −8, which the floor does not rule
/// out.
pub fn cube() -> Example {
    Example {
        name: "cube-masked",
        claim: power_claim(3).masked(1),
        proof: lone_proof([3]),
        text: LONE_TEXT,
    }
}
