//! The part of the sheets that a refusal blames, in the words of the text.

use crate::breach;
use crate::held::{Contents, Held, Sheets};
use crate::rules::{Index, Refusal, Sheet};
use crate::sheet::{Claim, Limits, Proof};
use burmelox::Profile;

/// The sheets that a refusal may blame, and what they were judged under.
#[derive(Clone, Copy)]
pub struct Blamed<'a> {
    pub claim: Option<&'a Held>,
    pub proof: Option<&'a Held>,
    pub limits: Option<&'a Held>,
    pub profile: Profile,
    /// The range of a search.
    pub range: Option<(i64, i64)>,
}

impl<'a> Blamed<'a> {
    /// The sheets of a check.
    pub fn sheets(sheets: &'a Sheets, profile: Profile) -> Blamed<'a> {
        let Sheets { claim, proof, given_limits, .. } = sheets;
        let limits = given_limits.as_ref();
        Blamed { claim: Some(claim), proof: Some(proof), limits, profile, range: None }
    }
}

impl<'a> From<&'a Contents> for Blamed<'a> {
    fn from(contents: &'a Contents) -> Blamed<'a> {
        let [claim, proof, limits] =
            [&contents.claim, &contents.proof, &contents.limits].map(Option::as_ref);
        Blamed { claim, proof, limits, profile: Profile::FULL, range: None }
    }
}

impl Blamed<'_> {
    /// What is at fault, with its file, and its line where it was a text.
    pub fn words(&self, refusal: Refusal) -> Option<String> {
        let rule = refusal.rule();
        let held = match rule.sheet {
            Sheet::Claim => self.claim?,
            Sheet::Limits => self.limits?,
            _ if rule.index == Index::Point => self.claim?,
            Sheet::Proof => self.proof?,
            Sheet::Range => return breach::of_range(self.range?),
            _ => return None,
        };
        let words = match rule.index {
            Index::Nothing => header(rule.sheet, &held.bytes)?,
            Index::Term | Index::Point => term(&held.bytes, refusal.index)?,
            Index::Row => row(&held.bytes, refusal.index)?,
            Index::Variable => variable(&held.bytes, refusal.index)?,
        };
        let place = match rule.index {
            Index::Nothing => Some(held.beginning()),
            _ => held.place(refusal.index),
        };
        let breach = self.breach(refusal, &held.bytes);
        let parts = [place, Some(words), breach];
        Some(parts.into_iter().flatten().collect::<Vec<String>>().join(": "))
    }

    /// Which of the possibilities of its rule a refusal means, where there are several.
    fn breach(&self, refusal: Refusal, sheet: &[u8]) -> Option<String> {
        let n = self.claim.and_then(|claim| claim.bytes.first().copied());
        match refusal.number {
            6 => breach::of_term(sheet, refusal.index, self.profile),
            9 => breach::of_proof(sheet, n, self.profile),
            12 | 15 => breach::of_row(sheet, refusal.index, refusal.number, self.profile),
            24 => breach::of_count(sheet, n),
            _ => None,
        }
    }
}

fn term(claim: &[u8], index: usize) -> Option<String> {
    let claim = Claim::read(claim)?;
    Some(format!("term {index} {}", claim.terms.get(index)?))
}

fn row(proof: &[u8], index: usize) -> Option<String> {
    let proof = Proof::read(proof)?;
    Some(format!("row {index} {}", proof.rows.get(index)?))
}

fn variable(limits: &[u8], index: usize) -> Option<String> {
    let limits = Limits::read(limits)?;
    Some(format!("variable {index} {}", limits.entries.get(index)?))
}

/// What the header of a sheet says; where its length is another, that alone.
fn header(sheet: Sheet, bytes: &[u8]) -> Option<String> {
    if bytes.is_empty() {
        return Some("the file is empty".to_string());
    }
    let (length, fields) = match sheet {
        Sheet::Claim => {
            (Claim::length(bytes), Claim::read(bytes).map(|claim| claim_fields(&claim)))
        }
        Sheet::Proof => {
            (Proof::length(bytes), Proof::read(bytes).map(|proof| proof_fields(&proof)))
        }
        Sheet::Limits => {
            (Limits::length(bytes), Limits::read(bytes).map(|limits| limits_fields(&limits)))
        }
        _ => return None,
    };
    fields.or_else(|| {
        let has = format!("{sheet} of {} bytes", bytes.len());
        Some(length.map_or(has.clone(), |length| format!("{has}, its header asks for {length}")))
    })
}

fn claim_fields(claim: &Claim) -> String {
    let Claim { n, mask, floor, terms } = claim;
    format!("claim of variables {n} terms {} mask {mask} floor {floor}", terms.len())
}

fn proof_fields(proof: &Proof) -> String {
    let Proof { n, scale, rows } = proof;
    format!("proof of variables {n} rows {} scale {scale}", rows.len())
}

fn limits_fields(limits: &Limits) -> String {
    format!("limits of variables {}", limits.entries.len())
}
