//! The oracle's texts of sheets and profiles.

mod common;

use common::{listing, refusal};
use oracle::Refusal;
use refusals::TEXTS;
use sheets::listings::{cases, longest, Longest};
use sheets::random::{Kind, Rng};
use sheets::Case;
use std::collections::BTreeMap;

const TOO_SHORT: Refusal = Refusal { number: 30, index: 0 };

#[test]
fn cases_come_to_their_outcomes() {
    for listed in cases() {
        let text = listing(listed.entry_point, &listed.case);
        let expected = listed.outcome.map(str::to_string);
        assert_eq!(text.map_err(|refusal| refusal.number), expected, "{}", listed.name);
    }
}

#[test]
fn the_longest_texts_have_their_lengths() {
    for Longest { entry_point, case, length } in longest() {
        let text = listing(entry_point, &case).unwrap();
        assert_eq!(text.len(), length, "{entry_point:?}");
        assert!(text.is_ascii() && text.ends_with('\n'));
    }
}

#[test]
fn a_buffer_is_as_long_as_the_text_or_longer() {
    for Longest { entry_point, case, .. } in longest() {
        let with = |spare| refusal(entry_point, &Case { spare, ..case.clone() });
        assert_eq!([with(0), with(1)], [None; 2]);
        assert_eq!([with(-1), with(isize::MIN)], [Some(TOO_SHORT); 2]);
    }
}

/// No text is longer than the longest, and none is that of two sheets.
#[test]
fn texts_of_random_sheets_are_told_apart() {
    let mut rng = Rng::new(1);
    let mut read: [BTreeMap<String, Vec<u8>>; 4] = Default::default();
    for kind in [Kind::Accepted, Kind::Extreme, Kind::Damaged, Kind::Noise] {
        for _ in 0..500 {
            let case = Case { spare: 0, ..kind.case(&mut rng) };
            let profile = [case.profile.exponent, case.profile.weight, case.profile.rows];
            let profile = profile.iter().flat_map(|number| number.to_le_bytes()).collect();
            let sheets = [case.claim.clone(), case.proof.clone(), case.limits.clone(), profile];
            for (index, sheet) in sheets.into_iter().enumerate() {
                let Ok(text) = listing(TEXTS[index], &case) else { continue };
                assert!(text.len() <= longest()[index].length);
                let first = read[index].entry(text).or_insert_with(|| sheet.clone());
                assert_eq!(*first, sheet);
            }
        }
    }
    assert!(read.iter().all(|texts| texts.len() > 100));
}
