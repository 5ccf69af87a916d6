//! Texts of sheets and profiles: the named ones, buffers of all lengths, and that a text tells its
//! sheet from every other.

use crate::answers;
use harness::report::{equal, Outcome, Report};
use refusals::{EntryPoint, TEXTS};
use sheets::listings::{cases, longest, Listed, Longest};
use sheets::random::{larger, Kind, Rng};
use sheets::worked::square_case;
use sheets::{Case, Profile};

/// How many random cases of each kind are looked at, and how many changes of each.
const CASES: usize = 500;
const CHANGES: usize = 20;

pub fn run(report: &mut Report) {
    for listed in cases() {
        report.add(&format!("text: {}", listed.name), comes_to_its_outcome(&listed));
    }
    for longest in longest() {
        report.add(&format!("longest {:?}", longest.entry_point), has_its_length(&longest));
    }
    for text in TEXTS {
        report.add(&format!("buffers for a {text:?}"), are_measured(text));
        report.add(&format!("a changed sheet has another {text:?}"), are_told_apart(text));
    }
}

/// The library and the oracle come to the text of a named case, or to the number that refuses it.
fn comes_to_its_outcome(listed: &Listed) -> Outcome {
    let text = answers::listing(listed.entry_point, &listed.case, &mut Rng::new(0))?;
    let text = text.map_err(|refusal| (refusal.number, refusal.index));
    let expected = listed.outcome.map(str::to_string).map_err(|number| (number, 0));
    equal("the outcome", &expected, &text)
}

fn has_its_length(longest: &Longest) -> Outcome {
    let Longest { entry_point, case, length } = longest;
    let text = answers::listing(*entry_point, case, &mut Rng::new(0))?;
    equal("the length", &Ok(*length), &text.map(|text| text.len()))
}

/// Every buffer that is shorter than the text is refused by 30, and no other.
fn are_measured(text: EntryPoint) -> Outcome {
    let length = text_of(text, &square_case()).map_or(0, |text| text.len() as isize);
    for spare in -length..=length {
        let case = Case { spare, ..square_case() };
        let refusal = answers::listing(text, &case, &mut Rng::new(0))?.err();
        let number = refusal.map(|refusal| refusal.number);
        equal(&format!("{spare} to spare"), &(spare < 0).then_some(30), &number)?;
    }
    Ok(())
}

/// One byte of a random sheet is changed, or a random profile: where the library still writes a
/// text, it is another. No oracle is asked.
fn are_told_apart(text: EntryPoint) -> Outcome {
    let (mut rng, mut told) = (Rng::new(1), 0);
    for kind in [Kind::Accepted, Kind::Extreme, Kind::Found] {
        for _ in 0..CASES {
            let case = kind.case(&mut rng);
            let before = text_of(text, &case);
            for _ in 0..CHANGES {
                let mut changed = case.clone();
                change(text, &mut changed, &mut rng);
                if let Some(after) = text_of(text, &changed) {
                    let what = format!("{case:?} and {changed:?} have one text");
                    equal(&what, &true, &(before.as_ref() != Some(&after)))?;
                    told += 1;
                }
            }
        }
    }
    println!("changed sheets with another {text:?}: {told}");
    equal("many changes leave a text", &true, &(told > CASES))
}

/// Changes one byte of the sheet that the text is of, by a bit or to any other, or the profile.
fn change(text: EntryPoint, case: &mut Case, rng: &mut Rng) {
    let sheet = match text {
        EntryPoint::ClaimText => &mut case.claim,
        EntryPoint::ProofText => &mut case.proof,
        EntryPoint::LimitsText => &mut case.limits,
        _ => return case.profile = other_profile(case.profile, rng),
    };
    let (place, bit, any) = (rng.below(sheet.len()), rng.below(8), 1 + rng.below(255) as u8);
    sheet[place] ^= rng.pick(&[1 << bit, any]);
}

/// A profile in range that is not the given one.
fn other_profile(profile: Profile, rng: &mut Rng) -> Profile {
    loop {
        let other = larger(rng, Profile::LEAST);
        if other != profile {
            return other;
        }
    }
}

/// The library's text, where it is not refused.
fn text_of(text: EntryPoint, case: &Case) -> Option<Vec<u8>> {
    let mut buffer = vec![0; 1 << 15];
    let answer = answers::list(text, case, &mut buffer);
    (answer < 1 << 16).then(|| buffer[..answer as usize].to_vec())
}
