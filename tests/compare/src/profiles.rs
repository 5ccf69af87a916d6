//! Profiles: the named cases, those out of range, and each number of a profile around what sheets
//! need of it.

use crate::answers;
use harness::report::{equal, Outcome, Report};
use oracle::Refusal;
use refusals::{rule, EntryPoint, LIBRARY};
use sheets::pages::lone_rows;
use sheets::profiles::{cases, Profiled, OUT_OF_RANGE};
use sheets::random::Rng;
use sheets::worked::{lone_proof, power_claim, square_case};
use sheets::{Case, Claim, Profile, Proof, MOST, PAGE_LENGTH};

pub fn run(report: &mut Report) {
    for profiled in cases() {
        report.add(&format!("profile: {}", profiled.name), comes_to_its_outcome(&profiled));
    }
    for profile in OUT_OF_RANGE {
        report.add(&format!("out of range: {profile:?}"), is_refused(profile));
    }
    report.add("a wrong page and a wrong profile", is_refused_by_the_page());
    report.add("the page of a wrong profile", has_a_page());
    report.add("exponents of profiles", are_exponents_measured());
    report.add("rows of profiles", are_rows_counted());
    report.add("weights of profiles", are_weights_measured());
}

/// Both checks come to the outcome of a named case, and all that the library answers is the
/// oracle's.
fn comes_to_its_outcome(profiled: &Profiled) -> Outcome {
    for entry_point in LIBRARY {
        let refusal = answers::compare(entry_point, &profiled.case, &mut Rng::new(0))?;
        if [EntryPoint::Check, EntryPoint::PageCheck].contains(&entry_point) {
            let refusal = refusal.map(|refusal| (refusal.number, refusal.index));
            equal(&format!("{entry_point:?}"), &profiled.outcome.err(), &refusal)?;
        }
    }
    Ok(())
}

/// Square, and the same without a claim.
fn squares() -> [Case; 2] {
    [square_case(), Case { claim: vec![], ..square_case() }]
}

/// Every entry point that reads the profile refuses it, whatever the claim is.
fn is_refused(profile: Profile) -> Outcome {
    for case in squares() {
        let case = case.under(profile);
        for &entry_point in rule(27).entry_points {
            let refusal = answers::compare(entry_point, &case, &mut Rng::new(0))?;
            equal(&format!("{entry_point:?}"), &Some(Refusal { number: 27, index: 0 }), &refusal)?;
        }
    }
    Ok(())
}

/// A page of wrong length is refused before the profile, and then no page is written.
fn is_refused_by_the_page() -> Outcome {
    for profile in OUT_OF_RANGE {
        for page in [0, PAGE_LENGTH - 1, PAGE_LENGTH + 1] {
            for case in squares() {
                let case = Case { page, ..case.under(profile) };
                let paged = answers::check_page(&case, &mut Rng::new(0))?;
                let refusal = paged.verdict.err();
                equal("the refusal", &Some(Refusal { number: 26, index: 0 }), &refusal)?;
                equal("the page", &None, &paged.page)?;
            }
        }
    }
    Ok(())
}

/// A profile out of range has a page, whose first line alone is not blank, and nothing else is
/// written.
fn has_a_page() -> Outcome {
    let page = format!("{:72}\n", "refused 27 at 0") + &format!("{:72}\n", "").repeat(39);
    for profile in OUT_OF_RANGE {
        for case in squares() {
            let paged = answers::check_page(&case.under(profile), &mut Rng::new(0))?;
            equal("the page", &Some(&page), &paged.page.as_ref())?;
        }
    }
    Ok(())
}

/// The number that refuses the library's check of the case under the profile.
fn refusing(case: &Case, profile: Profile) -> Result<Option<u32>, String> {
    let verdict = answers::check(&case.clone().under(profile), &mut Rng::new(0))?;
    Ok(verdict.err().map(|refusal| refusal.number))
}

/// Each exponent in a claim or in a row alone, under profiles with each greatest exponent.
fn are_exponents_measured() -> Outcome {
    for needed in 0..=120 {
        let claim = power_claim(needed).masked(1);
        let term = Case::new(&claim, &lone_proof([needed]));
        let row = Proof::new(1, &[([needed], [needed], [0, 0, 0])]);
        let row = Case::new(&Claim::new::<1>(0, &[]), &row);
        for exponent in 0..=122 {
            let profile = Profile { exponent, ..Profile::FULL };
            for (case, number) in [(&term, 6), (&row, 12)] {
                let is_short = exponent < needed.into();
                let expected = if exponent > 120 { Some(27) } else { is_short.then_some(number) };
                let what = format!("exponent {needed} under {exponent}");
                equal(&what, &expected, &refusing(case, profile)?)?;
            }
        }
    }
    Ok(())
}

/// Some numbers of rows under profiles with each greatest number of them.
fn are_rows_counted() -> Outcome {
    for k in [0, 1, 2, 38, 255, 256] {
        let case = lone_rows(k);
        for rows in 0..=258 {
            let profile = Profile { rows, ..Profile::FULL };
            let is_short = rows < k as u32;
            let expected = if rows > 256 { Some(27) } else { is_short.then_some(9) };
            equal(&format!("{k} rows under {rows}"), &expected, &refusing(&case, profile)?)?;
        }
    }
    Ok(())
}

/// One row of each weight around a power of two, as proposed and by the shift alone, under profiles
/// with a greatest weight of one less, as much and one more.
fn are_weights_measured() -> Outcome {
    let powers = (0..=30).map(|power| 1 << power);
    let weights = powers.flat_map(|power: i32| [power - 1, power, power + 1]);
    for needed in weights.filter(|needed| (1..=MOST).contains(needed)) {
        let claim = Claim::new(0, &[([0], needed)]);
        for (proposed, number) in [(needed, 15), (-needed, 15), (0, 17)] {
            let case = Case::new(&claim, &Proof::new(1, &[([0], [0], [proposed, 0, 0])]));
            for weight in [needed - 1, needed, needed + 1] {
                let profile = Profile { weight: weight as u32, ..Profile::FULL };
                let is_out = weight == 0 || weight > MOST;
                let is_short = weight < needed;
                let expected = if is_out { Some(27) } else { is_short.then_some(number) };
                let what = format!("weight {needed} proposed as {proposed} under {weight}");
                equal(&what, &expected, &refusing(&case, profile)?)?;
            }
        }
    }
    Ok(())
}
