//! The oracle against sheets made backwards, which say themselves what they must come to.

mod common;

use oracle::{check, check_unlimited, evaluate, search, Integer, Refusal, Verdict};
use refusals::LIBRARY;
use sheets::random::{larger, Kind, Plan, Rng, Shape};
use sheets::{Case, Limits, Profile, MOST};
use std::collections::BTreeSet;

/// The kinds of accepted cases.
const ACCEPTED: [Kind; 3] = [Kind::Accepted, Kind::Extreme, Kind::Found];

#[test]
fn shifted_weights_are_the_planned_ones() {
    let mut rng = Rng::new(1);
    for _ in 0..2000 {
        let plan = Plan::random(&mut rng, Shape::random, &[]);
        let case = Case::new(&plan.claim, &plan.proof).limited(&plan.limits);
        let accepted = verdict(&case).expect("planned rows hold");
        let shifted: Vec<[i64; 3]> =
            accepted.weights.iter().map(|weights| weights.map(i64::from)).collect();
        assert_eq!(shifted, plan.shifted);
    }
}

#[test]
fn every_kind_comes_to_what_it_was_made_for() {
    for kind in Kind::all() {
        let mut rng = Rng::new(2);
        for _ in 0..200 {
            let case = kind.case(&mut rng);
            for entry_point in LIBRARY {
                let Some(expected) = kind.expected(entry_point) else { continue };
                let refusal = common::refusal(entry_point, &case);
                assert_eq!(refusal.map_or(0, |refusal| refusal.number), expected, "{kind}");
            }
        }
    }
}

/// The verdict on the case.
fn verdict(case: &Case) -> Verdict {
    check(&case.claim, &case.proof, &case.limits, case.profile, case.room)
}

/// The verdict on the case with another mask.
fn with_mask(case: &Case, mask: u8) -> Verdict {
    let mut claim = case.claim.clone();
    claim[2] = mask;
    verdict(&Case { claim, ..case.clone() })
}

/// The verdict on the case without its limits, under the full profile.
fn without_limits(case: &Case) -> Verdict {
    check_unlimited(&case.claim, &case.proof, case.room)
}

/// Many accepted claims have a plus sign at an odd point that their mask keeps: without the mask
/// the verdict is another. In some of them it is another too where all variables are masked.
#[test]
fn masks_count_among_the_accepted() {
    let (mut kept, mut partly) = (0, 0);
    for kind in ACCEPTED {
        let mut rng = Rng::new(6);
        for _ in 0..1000 {
            let case = kind.case(&mut rng);
            let verdict = verdict(&case);
            let all = u8::MAX >> (8 - case.claim[0]);
            assert!(verdict.is_ok(), "{kind}");
            let counts = with_mask(&case, 0) != verdict;
            kept += usize::from(counts);
            partly += usize::from(counts && with_mask(&case, all) != verdict);
        }
    }
    assert!(kept > 500, "{kept} claims keep a sign by their mask");
    assert!(partly > 10, "{partly} of them do not keep every sign");
}

/// Where no variable is limited and the profile is full, a check says what it says without a limits
/// sheet.
#[test]
fn unlimited_cases_are_judged_as_before() {
    for kind in Kind::all() {
        let mut rng = Rng::new(7);
        for _ in 0..100 {
            let case = kind.case(&mut rng);
            let n = case.claim.first().copied().unwrap_or(0);
            let unlimited = case.limited(&Limits::none(n)).under(Profile::FULL);
            assert_eq!(verdict(&unlimited), without_limits(&unlimited), "{kind}");
        }
    }
}

/// Of the accepted cases with limits most have another verdict without them. Of the pure powers
/// some are claim terms and some are not; at some of them, and at some constants, the claim makes
/// up for what the limits change, so that the target is 0 and needs no slot.
#[test]
fn limits_count_among_the_accepted() {
    let (mut limited, mut counting, mut cancelled, mut added) = (0, 0, [0, 0], 0);
    for shape in [Shape::random, Shape::extreme, Shape::low] {
        let mut rng = Rng::new(8);
        for _ in 0..1000 {
            let plan = Plan::random(&mut rng, shape, &[]);
            let case = Case::new(&plan.claim, &plan.proof).limited(&plan.limits);
            limited += usize::from(plan.limits.limited().count() > 0);
            counting += usize::from(without_limits(&case) != verdict(&case));
            let points: BTreeSet<_> = plan.claim.terms.iter().map(|(point, _)| point).collect();
            for (point, change) in plan.limits.added() {
                let is_constant = point.iter().all(|&exponent| exponent == 0);
                if change != 0 && !plan.holds(&point) {
                    cancelled[usize::from(is_constant)] += 1;
                }
                added += usize::from(change > 0 && !points.contains(&point));
            }
        }
    }
    assert!(limited > 1000, "{limited} plans have limits");
    assert!(3 * counting > limited, "{counting} of {limited} have another verdict without them");
    let [pure_powers, constants] = cancelled;
    assert!(pure_powers > 100, "{pure_powers} pure powers have no slot and the target 0");
    assert!(constants > 50, "{constants} constants have no slot and the target 0");
    assert!(added > 100, "{added} pure powers are no claim terms");
}

/// Cases that the profile alone refuses are accepted under the full one, as they were before.
#[test]
fn tight_profiles_refuse_what_the_full_one_accepts() {
    for number in refusals::BY_PROFILE {
        let mut rng = Rng::new(10);
        for _ in 0..200 {
            let case = Kind::Tight(number).case(&mut rng);
            assert_eq!(verdict(&case).map_err(|refusal| refusal.number), Err(number));
            assert!(verdict(&case.under(Profile::FULL)).is_ok(), "{number}");
        }
    }
}

/// What is accepted under a profile is accepted under larger ones, with the same exact proof.
#[test]
fn larger_profiles_accept_alike() {
    for kind in ACCEPTED {
        let mut rng = Rng::new(11);
        for _ in 0..200 {
            let case = kind.case(&mut rng);
            let profile = larger(&mut rng, case.profile);
            assert_eq!(verdict(&case), verdict(&case.clone().under(profile)), "{kind}");
        }
    }
}

/// About half of the accepted cases have the full profile, and of the others many one that is as
/// small as they allow: any number of it less by one refuses them.
#[test]
fn accepted_cases_have_full_and_tight_profiles() {
    let (mut full, mut tight) = (0, 0);
    for kind in ACCEPTED {
        let mut rng = Rng::new(12);
        for _ in 0..200 {
            let case = kind.case(&mut rng);
            full += usize::from(case.profile == Profile::FULL);
            let is_refused = |&profile: &Profile| verdict(&case.clone().under(profile)).is_err();
            tight += usize::from(smaller(case.profile).iter().all(is_refused));
        }
    }
    assert!((250..400).contains(&full), "{full} cases of 600 have the full profile");
    assert!(tight > 100, "{tight} cases need all of their profile");
}

/// The profiles that are less by one in one number.
fn smaller(profile: Profile) -> [Profile; 3] {
    let Profile { exponent, weight, rows } = profile;
    [
        Profile { exponent: exponent.wrapping_sub(1), ..profile },
        Profile { weight: weight - 1, ..profile },
        Profile { rows: rows.wrapping_sub(1), ..profile },
    ]
}

/// Points that limits add are named behind the constant.
#[test]
fn added_points_without_a_slot_are_met() {
    let mut rng = Rng::new(9);
    let mut named = BTreeSet::new();
    for _ in 0..4000 {
        let case = Kind::Refused(16).case(&mut rng);
        let refusal = verdict(&case).expect_err("a target has no slot");
        named.extend(refusal.index.checked_sub(usize::from(case.claim[1]) + 1));
    }
    assert_eq!(named, (0..8).collect());
}

/// A search finds the highest of the carried floors, and none past the lowest, also where the
/// profile allows no more than the plan needs.
#[test]
fn carried_floors_are_found() {
    const TOP: i64 = MOST as i64;
    let mut rng = Rng::new(5);
    let mut lowest = 0;
    for _ in 0..1000 {
        let plan = Plan::random(&mut rng, Shape::random, &[]);
        let (claim, proof, limits) = (plan.claim.bytes(), plan.proof.bytes(), plan.limits.bytes());
        let profile = rng.pick(&[Profile::FULL, plan.needed()]);
        let found = |lo, hi| search(&claim, &proof, &limits, profile, proof.len(), lo, hi);
        let (low, high) = plan.carried(profile.weight).into_inner();
        let highest = found((high - 2).max(-TOP), (high + 2).min(TOP)).expect("one is carried");
        let tried = (high + 2).min(TOP) - high + 1;
        assert_eq!((highest.accepted.floor.into(), highest.tried.into()), (high, tried));
        if low > -TOP {
            lowest += 1;
            let floor = found(low, low).map(|found| found.accepted.floor.into());
            assert_eq!(floor, Ok(low));
            assert_eq!(found(low - 1, low - 1), Err(Refusal { number: 23, index: 0 }));
        }
    }
    assert!(lowest > 100, "{lowest} plans have a lowest floor");
}

#[test]
fn plans_reach_the_limits() {
    let mut rng = Rng::new(3);
    let plans: Vec<Plan> = (0..200).map(|_| Plan::random(&mut rng, Shape::extreme, &[])).collect();
    let most = |of: fn(&Plan) -> i64| plans.iter().map(of).max();
    let rows = || plans.iter().flat_map(|plan| &plan.proof.rows);
    let weights = || rows().flat_map(|row| row.weights);
    assert_eq!(most(|plan| plan.claim.n.into()), Some(8));
    assert_eq!(most(|plan| plan.claim.terms.len() as i64), Some(64));
    assert_eq!(most(|plan| plan.proof.rows.len() as i64), Some(256));
    assert_eq!(most(|plan| plan.proof.scale.into()), Some(1 << 20));
    assert_eq!(weights().max(), Some(MOST));
    assert_eq!(weights().min(), Some(-MOST));
    assert_eq!(rows().flat_map(|row| &row.w).max(), Some(&120));
}

#[test]
fn values_reach_64_times_2_to_56() {
    let mut rng = Rng::new(4);
    let cases = (0..200).map(|_| Kind::Largest.case(&mut rng));
    let values = cases
        .map(|case| evaluate(&case.claim, case.profile, &case.offsets).expect("no term is over"));
    assert_eq!(values.max(), Some(Integer::from(1i64 << 62)));
}
