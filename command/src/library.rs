//! The library's texts and verdicts as the command holds them.

use crate::rules::Refusal;
use burmelox::Profile;

/// The greatest lengths of texts, as the header has them.
const MOST_CLAIM_TEXT: usize = 4781;
const MOST_PROOF_TEXT: usize = 31_520;
const MOST_LIMITS_TEXT: usize = 395;
const MOST_PROFILE_TEXT: usize = 48;

/// The lines of a page with their line feeds.
const PAGE_LENGTH: usize = 2920;

/// A text, or why there is none.
pub type Text = Result<String, Refusal>;

pub fn claim_text(claim: &[u8]) -> Text {
    text(MOST_CLAIM_TEXT, |buffer| burmelox::claim_text(claim, buffer))
}

pub fn proof_text(proof: &[u8]) -> Text {
    text(MOST_PROOF_TEXT, |buffer| burmelox::proof_text(proof, buffer))
}

pub fn limits_text(limits: &[u8]) -> Text {
    text(MOST_LIMITS_TEXT, |buffer| burmelox::limits_text(limits, buffer))
}

pub fn profile_text(profile: Profile) -> Text {
    text(MOST_PROFILE_TEXT, |buffer| burmelox::profile_text(profile, buffer))
}

fn text(most: usize, write: impl Fn(&mut [u8]) -> u64) -> Text {
    let mut buffer = vec![0; most];
    let answer = write(&mut buffer);
    if let Some(refusal) = Refusal::of(answer) {
        return Err(refusal);
    }
    buffer.truncate(answer as usize);
    Ok(String::from_utf8(buffer).expect("the library's texts are ASCII"))
}

/// What a check comes to: its verdict line and its page, and the exact proof or the refusal.
pub struct Verdict {
    pub line: String,
    pub page: Vec<u8>,
    pub exact: Result<Vec<u8>, Refusal>,
}

/// The verdict on a claim and a proof with limits, under a profile.
pub fn check(claim: &[u8], proof: &[u8], limits: &[u8], profile: Profile) -> Verdict {
    let (mut output, mut page) = (vec![0; proof.len()], vec![0; PAGE_LENGTH]);
    let answer = burmelox::check_page(claim, proof, limits, profile, &mut output, &mut page);
    let first = page.split(|&byte| byte == b'\n').next().unwrap_or_default();
    let line = String::from_utf8_lossy(first).trim_end().to_string();
    let exact = Refusal::of(answer).map_or(Ok(output), Err);
    Verdict { line, page, exact }
}
