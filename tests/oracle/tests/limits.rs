//! The oracle against note 4 of document 02: limits sheets and what they do.

use oracle::{check, evaluate, printed, search, Integer, Refusal};
use sheets::limited::{self, minus_square, minus_square_claim, parabola_claim};
use sheets::worked::{lone_proof, square_claim, square_proof};
use sheets::{Case, Claim, Limit, Limits, Profile, Proof};

/// The shifted weights of an accepted case.
fn shifted(case: &Case) -> Result<Vec<[i32; 3]>, Refusal> {
    let Case { claim, proof, limits, profile, room, .. } = case;
    check(claim, proof, limits, *profile, *room).map(|accepted| accepted.weights)
}

/// The same of a claim and a proof with limits.
fn shifted_within(claim: Claim, proof: Proof, limits: &[Limit]) -> Result<Vec<[i32; 3]>, Refusal> {
    shifted(&Case::new(&claim, &proof).limited(&Limits::new(limits)))
}

fn refused(number: u32, index: usize) -> Result<Vec<[i32; 3]>, Refusal> {
    Err(Refusal { number, index })
}

/// Square with a limits sheet.
fn square_with(limits: Vec<u8>) -> Case {
    Case { limits, ..Case::new(&square_claim(0, -2), &square_proof()) }
}

/// A sheet for three variables of which the second has the entry.
fn second(entry: Limit) -> Limits {
    Limits::new(&[Limit::new(2, 1, 0), entry, Limit::UNLIMITED])
}

#[test]
fn examples_with_limits_come_to_their_text() {
    for limited in limited::examples() {
        let Case { claim, proof, limits, profile, room, .. } = limited.case();
        let text = printed(&check(&claim, &proof, &limits, profile, room));
        assert_eq!(text, limited.example.text, "{}", limited.example.name);
    }
}

/// Their floors are the best: a search from above finds no other.
#[test]
fn accepted_examples_have_the_highest_floor() {
    for limited in limited::examples() {
        let Case { claim, proof, limits, profile, room, lo, .. } = limited.case();
        if let Ok(accepted) = check(&claim, &proof, &limits, profile, room) {
            let found = search(&claim, &proof, &limits, profile, room, lo - 1, lo + 100);
            let found = found.map(|found| found.accepted);
            assert_eq!(found, Ok(accepted), "{}", limited.example.name);
        }
    }
}

/// The multiplier is not multiplied by the scale.
#[test]
fn the_scale_does_not_go_into_the_multiplier() {
    let verdict = |scale, multiplier| {
        let proof = Proof::new::<1>(scale, &[]);
        shifted_within(minus_square_claim(), proof, &[Limit::new(2, 3, multiplier)])
    };
    assert_eq!(verdict(1, 1), Ok(vec![]));
    assert_eq!(verdict(2, 1), refused(16, 0));
    assert_eq!(verdict(2, 2), Ok(vec![]));
    assert_eq!(verdict(1, 0), refused(16, 0));
}

/// x − x² needs both: the limit brings x² and the constant to 0, the mask keeps the sign of x.
#[test]
fn a_limited_variable_may_be_masked() {
    let verdict = |mask, limit| shifted_within(parabola_claim(mask), lone_proof([1]), &[limit]);
    assert_eq!(verdict(1, Limit::new(2, 3, 1)), Ok(vec![[1, 0, 0]]));
    assert_eq!(verdict(0, Limit::new(2, 3, 1)), refused(18, 0));
    assert_eq!(verdict(1, Limit::UNLIMITED), refused(16, 1));
}

#[test]
fn a_multiplier_of_0_leaves_the_targets() {
    for entry in [Limit::new(2, 1, 0), Limit::new(4, 1023, 0)] {
        let verdict = shifted_within(square_claim(0, -2), square_proof(), &[entry]);
        assert_eq!(verdict, Ok(vec![[1, 1, -2]]), "{entry:?}");
    }
}

/// L is read with its low byte first: with 256 the constant's target falls by 65,536.
#[test]
fn limits_are_little_endian() {
    let claim = Claim::new(-65_536, &[([2], -1)]);
    let verdict = shifted_within(claim, Proof::new::<1>(1, &[]), &[Limit::new(2, 256, 1)]);
    assert_eq!(verdict, Ok(vec![]));
    assert_eq!(Limits::new(&[Limit::new(2, 256, 1)]).bytes(), [1, 2, 0, 1, 1, 0, 0, 0]);
}

/// All multipliers stand behind all entries.
#[test]
fn multipliers_stand_behind_the_entries() {
    let limits = Limits::new(&[Limit::new(2, 3, 5), Limit::new(4, 6, 7)]);
    assert_eq!(limits.bytes(), [2, 2, 3, 0, 4, 6, 0, 5, 0, 0, 0, 7, 0, 0, 0]);
}

#[test]
fn targets_without_a_slot_are_named_in_their_order() {
    let limit = Limit::new(2, 1, 1);
    let no_rows = || Proof::new::<2>(1, &[]);
    let both = [limit, limit];
    // x² is term 0, then come the constant and y², which the claim lacks.
    let claim = || Claim::new(0, &[([2, 0], -2)]);
    let with_rows = |points: &[[u8; 2]]| {
        let rows: Vec<_> = points.iter().map(|&point| (point, point, [0, 0, 0])).collect();
        Proof::new(1, &rows)
    };
    assert_eq!(shifted_within(claim(), no_rows(), &both), refused(16, 0));
    assert_eq!(shifted_within(claim(), with_rows(&[[2, 0]]), &both), refused(16, 1));
    assert_eq!(shifted_within(claim(), with_rows(&[[0, 0], [2, 0]]), &both), refused(16, 3));

    // A term that its limit brings to the target 0 needs no slot.
    let claim = Claim::new(0, &[([2, 0], -1)]);
    assert_eq!(shifted_within(claim, with_rows(&[[0, 0]]), &both), refused(16, 3));

    let claim = Claim::new::<1>(0, &[]);
    assert_eq!(shifted_within(claim, Proof::new::<1>(1, &[]), &[limit]), refused(16, 0));
    let claim = Claim::new::<2>(0, &[]);
    let second = [Limit::UNLIMITED, limit];
    assert_eq!(shifted_within(claim, lone_proof([0, 0]), &second), refused(16, 2));
}

#[test]
fn a_sheet_of_wrong_length_or_n_is_refused() {
    let none = Limits::none(1).bytes();
    let longer = [&none[..], &[0]].concat();
    for limits in [vec![], none[..1].to_vec(), none[..7].to_vec(), longer] {
        assert_eq!(shifted(&square_with(limits)), refused(24, 0));
    }
    for n in [0, 2, 255] {
        let limits = Limits { n, ..Limits::none(1) };
        assert_eq!(shifted(&square_with(limits.bytes())), refused(24, 0), "{n}");
        assert_eq!(shifted(&square_with(Limits::none(n).bytes())), refused(24, 0), "{n}");
    }
}

#[test]
fn wrong_fields_are_refused_at_their_variable() {
    let claim = Claim::new::<3>(0, &[]);
    let verdict =
        |limits: &Limits| shifted(&Case::new(&claim, &Proof::new::<3>(1, &[])).limited(limits));
    let wrong = [
        Limit::new(3, 1, 0),
        Limit::new(1, 1, 0),
        Limit::new(5, 1, 0),
        Limit::new(255, 1, 0),
        Limit::new(2, 0, 0),
        Limit::new(4, 0, 0),
        Limit::new(2, 1024, 0),
        Limit::new(4, 65_535, 0),
        Limit::new(2, 1, 65_537),
        Limit::new(2, 1, u32::MAX),
        Limit::new(0, 1, 0),
        Limit::new(0, 0, 1),
    ];
    for entry in wrong {
        assert_eq!(verdict(&second(entry)), refused(25, 1), "{entry:?}");
    }
    let right =
        [Limit::UNLIMITED, Limit::new(2, 1, 0), Limit::new(4, 1023, 0), Limit::new(2, 256, 0)];
    for entry in right {
        assert_eq!(verdict(&second(entry)), Ok(vec![]), "{entry:?}");
    }
}

/// The greatest limits: the constant's target falls by 8 × 65,536 × 1,023⁴, which no claim makes up
/// for.
#[test]
fn the_greatest_limits_are_right() {
    let claim = Claim::new::<8>(0, &[]);
    let limits = [Limit::new(4, 1023, 65_536); 8];
    assert_eq!(shifted_within(claim.clone(), Proof::new::<8>(1, &[]), &limits), refused(16, 0));
    assert_eq!(shifted_within(claim.clone(), lone_proof([0; 8]), &limits), refused(16, 1));
    let rows: Vec<_> = (0..8).map(|variable| pure_power(variable, 4)).chain([[0; 8]]).collect();
    let rows: Vec<_> = rows.iter().map(|&point| (point, point, [0, 0, 0])).collect();
    assert_eq!(shifted_within(claim, Proof::new(1, &rows), &limits), refused(17, 8));
}

fn pure_power(variable: usize, power: u8) -> [u8; 8] {
    let mut point = [0; 8];
    point[variable] = power;
    point
}

/// 24 and 25 stand behind 10 and before 11.
#[test]
fn limits_are_read_between_the_proof_and_the_output() {
    let short = Case { room: 21, ..square_with(vec![]) };
    let third_power = Limits::new(&[Limit::new(3, 1, 1)]);
    assert_eq!(shifted(&short), refused(24, 0));
    assert_eq!(shifted(&short.clone().limited(&third_power)), refused(25, 0));
    assert_eq!(shifted(&short.clone().limited(&Limits::none(1))), refused(11, 0));

    let mut longer = short.clone();
    longer.proof.push(0);
    assert_eq!(shifted(&longer), refused(10, 0));
    let far = Proof::new(1, &[([0], [121], [1, 1, -2])]);
    let far = Case { limits: vec![], ..Case::new(&square_claim(0, -2), &far) };
    assert_eq!(shifted(&far), refused(24, 0));
}

/// The floor is promised within the limits; a value is given everywhere.
#[test]
fn an_accepted_claim_may_be_under_its_floor_outside_the_limits() {
    let limited = minus_square();
    assert_eq!(shifted(&limited.case()), Ok(vec![]));
    let value = |offset| evaluate(&limited.example.claim.bytes(), Profile::FULL, &[offset]);
    assert_eq!(value(3), Ok(Integer::from(-9)));
    assert_eq!(value(-4), Ok(Integer::from(-16)));
}
