//! The oracle against documents 01 and 02: the examples, the table of refusals, the program's
//! input, masks, evaluations and searches. Limits, pages and profiles have files of their own.

mod common;

use oracle::{check_unlimited, evaluate, search, text, Integer, Refusal};
use refusals::{rule, said_by, EntryPoint, Sheet, RULES};
use sheets::masked::{b_claim, cube, product_claim};
use sheets::worked::{
    lone_proof, motzkin_claim, power_claim, square_claim, square_input, square_proof, SQUARE_CUTS,
};
use sheets::{posts, searches, table, Case, Claim, Profile, Proof};
use std::collections::BTreeSet;

#[test]
fn examples_print_their_text() {
    for example in sheets::examples() {
        assert_eq!(text(&example.input()), example.text, "{}", example.name);
    }
}

#[test]
fn the_exact_proof_is_the_proof_with_shifted_weights() {
    let (claim, proof) = (square_claim(-1, -2).bytes(), square_proof().bytes());
    let accepted = check_unlimited(&claim, &proof, 22).unwrap();
    let exact = Proof::new(1, &[([0], [2], [2, 1, -2])]);
    assert_eq!(accepted.bytes, exact.bytes());
    assert_eq!((accepted.floor, accepted.scale), (-1, 1));
    assert_eq!(accepted.weights, [[2, 1, -2]]);
}

#[test]
fn every_example_of_the_table_is_refused_by_its_number() {
    let entries = table::entries();
    for entry in &entries {
        let table::Entry { number, index, ref case } = *entry;
        for entry_point in entry.entry_points() {
            let answer = common::refusal(entry_point, case);
            assert_eq!(answer, Some(Refusal { number, index }), "{entry_point:?}");
        }
    }
    let shown: BTreeSet<u32> = entries.iter().map(|entry| entry.number).collect();
    assert_eq!(shown, RULES.iter().map(|rule| rule.number).collect());
}

#[test]
fn refusals_blame_a_sheet() {
    let blamed = [
        (Sheet::Claim, vec![1, 2, 3, 4, 5, 6, 7, 21]),
        (Sheet::Proof, vec![8, 9, 10, 12, 13, 14, 15, 16, 17, 18, 19]),
        (Sheet::Output, vec![11]),
        (Sheet::Offsets, vec![20]),
        (Sheet::Range, vec![22, 23]),
        (Sheet::Limits, vec![24, 25]),
        (Sheet::Page, vec![26]),
        (Sheet::Profile, vec![27]),
        (Sheet::Buffer, vec![30]),
    ];
    for (sheet, numbers) in blamed {
        for number in numbers {
            assert_eq!(rule(number).sheet, sheet, "{number}");
        }
    }
    let third_row = Refusal { number: 19, index: 2 };
    assert_eq!(third_row.code(), (2 << 32) + (19 << 16) + 2);
}

/// Of the numbers that document 01 and notes 1 to 7 of document 02 define, up to 27.
#[test]
fn entry_points_say_their_numbers_in_the_order_of_checks() {
    let said = |entry_point| said_by(entry_point).filter(|&number| number <= 27);
    let to_15 = || [27].into_iter().chain(1..=10).chain([24, 25]).chain(11..=15);
    let to_19 = || to_15().chain(16..=19);
    assert!(said(EntryPoint::Check).eq(to_19()));
    assert!(said(EntryPoint::PageCheck).eq([26].into_iter().chain(to_19())));
    assert!(said(EntryPoint::Evaluation).eq([27].into_iter().chain(1..=7).chain([20, 21])));
    assert!(said(EntryPoint::Search).eq(to_15().chain([22, 23])));
    assert!(said(EntryPoint::Program).eq((1..=10).chain(12..=19)));
    assert!(said_by(EntryPoint::ClaimText).eq((1..=7).chain([30])));
    assert!(said_by(EntryPoint::ProofText).eq((8..=10).chain(12..=15).chain([30])));
    assert!(said_by(EntryPoint::LimitsText).eq([24, 25, 30]));
    assert!(said_by(EntryPoint::ProfileText).eq([27, 30]));
}

#[test]
fn the_input_is_split_by_the_header_of_the_claim() {
    let input = square_input();
    for (length, expected) in SQUARE_CUTS {
        assert_eq!(text(&input[..length]), expected, "{length}");
    }
    assert_eq!(text(&[]), "refused 1 at 0\n");
    assert_eq!(text(&[&input[..], &[0]].concat()), "refused 10 at 0\n");
    assert_eq!(text(&[9, 3, 0, 0, 0, 0, 0, 0, 0]), "refused 2 at 0\n");
}

#[test]
fn an_absent_constant_has_the_index_after_the_terms() {
    let claim = Claim::new(5, &[([2], 1), ([4], 1)]);
    let proof = Proof::new(1, &[([2], [2], [1, 0, 0]), ([4], [4], [1, 0, 0])]);
    assert_eq!(shifted(claim, &proof), Err(Refusal { number: 16, index: 2 }));
}

/// The shifted weights of an accepted proof, where no variable is limited.
fn shifted(claim: Claim, proof: &Proof) -> Result<Vec<[i32; 3]>, Refusal> {
    let proof = proof.bytes();
    check_unlimited(&claim.bytes(), &proof, proof.len()).map(|accepted| accepted.weights)
}

const NEGATIVE_END: Refusal = Refusal { number: 18, index: 0 };
const CLAIM_HEADER: Refusal = Refusal { number: 2, index: 0 };

#[test]
fn a_masked_odd_point_keeps_its_sign() {
    assert_eq!(shifted(b_claim(0), &square_proof()), Ok(vec![[1, 1, -2]]));
    assert_eq!(shifted(b_claim(1), &square_proof()), Ok(vec![[1, 1, 2]]));
    assert_eq!(shifted(b_claim(2), &square_proof()), Err(CLAIM_HEADER));
    assert_eq!(shifted(square_claim(0, -2).masked(1), &square_proof()), Ok(vec![[1, 1, -2]]));

    assert_eq!(shifted(power_claim(3), &lone_proof([3])), Err(NEGATIVE_END));
    assert_eq!(shifted(power_claim(3).masked(1), &lone_proof([3])), Ok(vec![[1, 0, 0]]));
}

#[test]
fn every_odd_exponent_has_to_be_masked() {
    let product = |mask| shifted(product_claim::<2>(mask), &lone_proof([1, 1]));
    for mask in 0..3 {
        assert_eq!(product(mask), Err(NEGATIVE_END), "{mask}");
    }
    assert_eq!(product(3), Ok(vec![[1, 0, 0]]));

    let product = |mask| shifted(product_claim::<8>(mask), &lone_proof([1; 8]));
    assert_eq!(product(255), Ok(vec![[1, 0, 0]]));
    for variable in 0..8 {
        assert_eq!(product(255 - (1 << variable)), Err(NEGATIVE_END), "{variable}");
    }
}

/// Bit i of the mask is of the exponent at place i.
#[test]
fn a_bit_is_of_one_variable() {
    for odd in 0..8 {
        let mut point = [2; 8];
        point[odd] = 3;
        let claim = Claim::new(0, &[(point, 1)]);
        for bit in 0..8 {
            let verdict = shifted(claim.clone().masked(1 << bit), &lone_proof(point));
            let expected = if bit == odd { Ok(vec![[1, 0, 0]]) } else { Err(NEGATIVE_END) };
            assert_eq!(verdict, expected, "{odd} {bit}");
        }
    }
}

#[test]
fn a_mask_has_bits_of_variables_only() {
    for n in 1..=8 {
        for mask in 0..=255 {
            let claim = Claim { n, mask, floor: 0, terms: vec![] };
            let proof = Proof { n, scale: 1, rows: vec![] };
            let is_past = u32::from(mask) >= 1 << n;
            let expected = if is_past { Err(CLAIM_HEADER) } else { Ok(vec![]) };
            assert_eq!(shifted(claim, &proof), expected, "{n} {mask}");
        }
    }
    let mut claim = b_claim(1).bytes();
    claim[3] = 1;
    assert_eq!(evaluate(&claim, Profile::FULL, &[0]), Err(CLAIM_HEADER));
}

/// 16 names the first term without a slot by the order of terms alone.
#[test]
fn no_mask_moves_a_term_without_a_slot() {
    let claim = Claim::new(0, &[([1, 0], -1), ([1, 1], 1), ([2, 0], 1)]);
    for mask in 0..4 {
        let verdict = shifted(claim.clone().masked(mask), &lone_proof([2, 0]));
        assert_eq!(verdict, Err(Refusal { number: 16, index: 0 }), "{mask}");
    }
}

/// The floor is promised where no masked variable is negative; a value is given everywhere.
#[test]
fn an_accepted_claim_may_be_under_its_floor_at_a_masked_negative_offset() {
    let cube = cube();
    assert_eq!(shifted(cube.claim.clone(), &cube.proof), Ok(vec![[1, 0, 0]]));
    assert_eq!(cube.claim.floor, 0);
    assert_eq!(evaluate(&cube.claim.bytes(), Profile::FULL, &[-2]), Ok(Integer::from(-8)));
    assert_eq!(evaluate(&cube.claim.bytes(), Profile::FULL, &[2]), Ok(Integer::from(8)));
}

#[test]
fn evaluations_are_exact() {
    let value = |claim: Claim, offsets: &[i32]| evaluate(&claim.bytes(), Profile::FULL, offsets);
    let square = || square_claim(0, -2);
    assert_eq!(value(power_claim(56), &[2]), Ok(Integer::from(1i64 << 56)));
    assert_eq!(value(power_claim(57), &[2]), Err(Refusal { number: 21, index: 0 }));
    assert_eq!(value(square(), &[-3]), Ok(Integer::from(16)));
    assert_eq!(value(square(), &[0]), Ok(Integer::from(1)));
    assert_eq!(value(square(), &[]), Err(Refusal { number: 20, index: 0 }));
    assert_eq!(value(motzkin_claim(), &[1, -1]), Ok(Integer::from(0)));
    assert_eq!(value(square(), &[i32::MIN]), Err(Refusal { number: 21, index: 2 }));
    assert_eq!(value(posts::post_4().claim, &[2000, 1]), Ok(Integer::from(0)));
    assert_eq!(value(posts::post_9().claim, &[2000, 1]), Ok(Integer::from(-1)));
}

#[test]
fn a_zero_offset_makes_its_term_zero_however_large_the_rest() {
    let claim = Claim::new(0, &[([0, 0], 7), ([120, 1], 1)]).bytes();
    assert_eq!(evaluate(&claim, Profile::FULL, &[i32::MIN, 0]), Ok(Integer::from(7)));
    assert_eq!(
        evaluate(&claim, Profile::FULL, &[i32::MIN, 1]),
        Err(Refusal { number: 21, index: 1 })
    );
}

#[test]
fn searches_come_to_their_outcomes() {
    for searches::Search { name, case, outcome } in searches::searches() {
        let Case { claim, proof, limits, profile, room, lo, hi, .. } = case;
        let found = search(&claim, &proof, &limits, profile, room, lo, hi);
        let found = found.map(|found| searches::Found {
            floor: found.accepted.floor.into(),
            tried: found.tried,
            exact: found.accepted.bytes,
        });
        assert_eq!(found, outcome.map_err(|number| Refusal { number, index: 0 }), "{name}");
    }
}
