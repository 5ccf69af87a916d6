//! How sheets and refusals are told in a report.

use crate::advice;
use crate::balance::Balance;
use crate::fault::Blamed;
use crate::held::Sheets;
use crate::json::Object;
use crate::library::{self, Text};
use crate::report::Report;
use crate::rules::Refusal;
use crate::sheet::{Claim, Limits, Proof};
use burmelox::Profile;

/// The library's text of something; of what it refuses there is none.
pub fn tell_text(report: &mut Report, name: &str, text: Text) {
    if let Ok(text) = text {
        report.text(name, &text);
    }
}

/// The texts of the claim, and of limits and profile where they were given.
pub fn tell_sheets(report: &mut Report, claim: &[u8], sheets: &Sheets, profile: Option<Profile>) {
    tell_text(report, "claim", library::claim_text(claim));
    if let Some(limits) = &sheets.given_limits {
        tell_text(report, "limits", library::limits_text(&limits.bytes));
    }
    if let Some(profile) = profile {
        tell_text(report, "profile", library::profile_text(profile));
    }
}

/// An acceptance, by the library's line.
pub fn tell_accepted(report: &mut Report, line: &str) {
    report.line(line);
    accepted_fields(report.fields(), line);
}

/// The fields of an acceptance, by the library's line, whose words are names and numbers in turn.
pub fn accepted_fields(object: &mut Object, line: &str) {
    object.text("verdict", "accepted");
    let words: Vec<&str> = line.split(' ').skip(1).collect();
    for pair in words.chunks_exact(2) {
        object.number(pair[0], pair[1]);
    }
}

/// A refusal: its line, what it means, what is at fault and what to do.
pub fn tell_refusal(report: &mut Report, refusal: Refusal, blamed: Blamed) {
    let rule = refusal.rule();
    report.line(&refusal.to_string());
    refused_fields(report.fields(), refusal);
    report.line(&format!("what is wrong: {}: {}", rule.sheet, rule.wrong));
    report.fields().text("wrong", rule.wrong);
    if let Some(words) = blamed.words(refusal) {
        report.note("fault", "at fault", &words);
    }
    report.note("remedy", "what to do", rule.remedy);
}

/// The fields of a refusal.
pub fn refused_fields(object: &mut Object, refusal: Refusal) {
    object.text("verdict", "refused");
    object.number("number", refusal.number);
    object.number("index", refusal.index);
    object.text("sheet", &refusal.rule().sheet.to_string());
}

/// A claim that reads as a proof, or a proof that reads as a claim: the files may be swapped.
pub fn tell_swapped(report: &mut Report, sheets: &Sheets, refusal: Refusal) {
    let Sheets { claim, proof, .. } = sheets;
    let (held, kind, is_other) = match refusal.number {
        1..=3 => (claim, "proof", library::proof_text(&claim.bytes).is_ok()),
        8..=10 => (proof, "claim", library::claim_text(&proof.bytes).is_ok()),
        _ => return,
    };
    if is_other && claim.file != proof.file {
        let words = format!("{} reads as a {kind}: are CLAIM and PROOF swapped?", held.file);
        report.note("advice", "advice", &words);
    }
}

/// Advice on a refusal by 16 to 19.
pub fn tell_advice(
    report: &mut Report,
    claim: &[u8],
    sheets: &Sheets,
    profile: Profile,
    refusal: Refusal,
) {
    let fields =
        (Claim::read(claim), Proof::read(&sheets.proof.bytes), Limits::read(&sheets.limits));
    let (16..=19, (Some(claim), Some(proof), Some(limits))) = (refusal.number, fields) else {
        return;
    };
    let balance = Balance::new(&claim, &proof, &limits);
    if refusal.number > 16 {
        report.fields().list("shifted", balance.shifted[refusal.index]);
    }
    if let Some(words) = advice::advice(&balance, profile, refusal) {
        report.note("advice", "advice", &words);
    }
}
