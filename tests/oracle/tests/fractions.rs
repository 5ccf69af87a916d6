//! The oracle at fractions of an offset, note 5 of document 02.

use oracle::{evaluate, sides, Integer, Sides};
use sheets::limited::{line, minus_square_claim};
use sheets::masked::cube;
use sheets::random::{Kind, Rng};
use sheets::worked::{motzkin_claim, square_claim};
use sheets::Claim;

/// The floor and the value at `h` over `d`.
fn at(claim: &[u8], floor: i32, h: &[i32], d: u32) -> Sides {
    let h: Vec<Integer> = h.iter().copied().map(Integer::from).collect();
    sides(claim, &floor.into(), &h, d).expect("the claim is right")
}

#[test]
fn terms_and_floor_are_lifted_to_the_greatest_total_degree() {
    let empty = Claim::new::<1>(-1, &[]);
    let cases: [(Claim, u32, &[i32], i32, i32); 8] = [
        (motzkin_claim(), 5, &[5, 5], 0, 0),
        (motzkin_claim(), 2, &[1, -2], 0, 36),
        (square_claim(0, -2), 2, &[-3], 0, 25),
        (line().example.claim, 3, &[-15], -15, -15),
        (minus_square_claim(), 2, &[6], -36, -36),
        (cube().claim, 3, &[2], 0, 8),
        (cube().claim, 3, &[-2], 0, -8),
        (empty, 7, &[1], -1, 0),
    ];
    for (claim, d, h, floor, value) in cases {
        let expected = Sides { floor: floor.into(), value: value.into() };
        assert_eq!(at(&claim.bytes(), claim.floor, h, d), expected, "{claim:?} at {h:?} over {d}");
    }
}

#[test]
fn over_1_the_value_is_that_of_an_evaluation() {
    let mut rng = Rng::new(1);
    let mut given = 0;
    for _ in 0..1000 {
        let case = Kind::Accepted.case(&mut rng);
        let Ok(value) = evaluate(&case.claim, case.profile, &case.offsets) else { continue };
        given += 1;
        let sides = at(&case.claim, -7, &case.offsets, 1);
        assert_eq!(sides, Sides { floor: Integer::from(-7), value });
    }
    assert!(given > 100, "{given} evaluations give a value");
}

/// h / d is 3h / 3d: both sides are then multiplied by one power of 3.
#[test]
fn an_expanded_fraction_has_the_same_ratio_of_sides() {
    let mut rng = Rng::new(2);
    for _ in 0..300 {
        let case = Kind::Accepted.case(&mut rng);
        let h: Vec<i32> = case.offsets.iter().map(|offset| offset >> 2).collect();
        let expanded: Vec<i32> = h.iter().map(|number| 3 * number).collect();
        let (plain, more) = (at(&case.claim, 1, &h, 2), at(&case.claim, 1, &expanded, 6));
        assert_eq!(&plain.floor * &more.value, &plain.value * &more.floor);
        assert!(plain.floor <= more.floor);
    }
}
