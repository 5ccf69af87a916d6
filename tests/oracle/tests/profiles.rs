//! The oracle against note 7 of document 02: profiles.

mod common;

use oracle::{check, check_page, evaluate, search, Integer, Refusal};
use refusals::rule;
use sheets::profiles::{cases, OUT_OF_RANGE};
use sheets::worked::square_case;
use sheets::{Case, Claim, Profile, Proof, MOST, PAGE_LENGTH};

const OUT: Option<Refusal> = Some(Refusal { number: 27, index: 0 });

fn verdict(case: &Case) -> Result<(), (u32, usize)> {
    let Case { claim, proof, limits, profile, room, .. } = case;
    let verdict = check(claim, proof, limits, *profile, *room);
    verdict.map(|_| ()).map_err(|refusal| (refusal.number, refusal.index))
}

#[test]
fn cases_come_to_their_outcomes() {
    for profiled in cases() {
        assert_eq!(verdict(&profiled.case), profiled.outcome, "{}", profiled.name);
    }
}

/// By every entry point that is handed one, before the claim is looked at.
#[test]
fn profiles_out_of_range_are_refused() {
    let empty = Case { claim: vec![], ..square_case() };
    for profile in OUT_OF_RANGE {
        for case in [square_case(), empty.clone()] {
            let case = case.under(profile);
            for &entry_point in rule(27).entry_points {
                let refusal = common::refusal(entry_point, &case);
                assert_eq!(refusal, OUT, "{entry_point:?} {profile:?}");
            }
        }
    }
}

/// 26 comes before 27, which has a page.
#[test]
fn a_wrong_page_is_refused_before_a_wrong_profile() {
    for profile in OUT_OF_RANGE {
        let paged = |page| {
            let Case { claim, proof, limits, room, .. } = square_case();
            check_page(&claim, &proof, &limits, profile, room, page)
        };
        let wrong = paged(PAGE_LENGTH - 1);
        assert_eq!(wrong.verdict, Err(Refusal { number: 26, index: 0 }), "{profile:?}");
        assert_eq!(wrong.page, None);
        let right = paged(PAGE_LENGTH);
        assert_eq!(right.verdict.err(), OUT, "{profile:?}");
        assert!(right.page.is_some_and(|page| page.starts_with("refused 27 at 0 ")));
    }
}

/// The ends of the ranges are in range: Square is refused by its own checks.
#[test]
fn the_least_and_the_full_profile_are_in_range() {
    let square =
        |exponent, weight, rows| verdict(&square_case().under(Profile { exponent, weight, rows }));
    assert_eq!(square(0, 1, 0), Err((6, 1)));
    assert_eq!(square(2, 1, 0), Err((9, 0)));
    assert_eq!(square(2, 1, 1), Err((15, 0)));
    assert_eq!(square(120, 1 << 30, 256), Ok(()));
}

/// 4, 5 and 22 keep their 2^30, and an evaluation reads the exponent alone.
#[test]
fn coefficients_and_floors_do_not_go_by_the_weight() {
    let claim = |floor, coefficient| Claim::new(floor, &[([0], coefficient)]);
    let no_rows = Proof::new::<1>(1, &[]);
    let under_least = |claim: Claim| verdict(&Case::new(&claim, &no_rows).under(Profile::LEAST));
    assert_eq!(under_least(claim(MOST, MOST)), Ok(()));
    assert_eq!(under_least(claim(-MOST, -MOST)), Ok(()));
    assert_eq!(under_least(claim(0, MOST)), Err((16, 0)));
    assert_eq!(under_least(claim(0, MOST + 1)), Err((5, 0)));
    assert_eq!(under_least(claim(MOST + 1, 1)), Err((4, 0)));
    let Case { claim: bytes, proof, limits, room, lo, hi, .. } =
        Case::new(&claim(MOST, MOST), &no_rows);
    let found = search(&bytes, &proof, &limits, Profile::LEAST, room, lo, hi);
    assert_eq!(found.map(|found| found.accepted.floor), Ok(MOST));
    let value = evaluate(&bytes, Profile::LEAST, &[3]);
    assert_eq!(value, Ok(Integer::from(MOST)));
}
