//! The verdict on paper, document 02's note 6: refusal 26 and every byte of a page.

use crate::check::check;
use crate::text::first_line;
use crate::verdict::{refuse_if, shifted_rows, Verdict};
use site::Profile;

/// The lines of a page, and the characters of each before its line feed.
const LINES: usize = 40;
const WIDTH: usize = 72;

/// The rows that a page has room for, between its first line and its last.
const ROWS: usize = LINES - 2;

/// What a check with a page comes to: the verdict, and the page where one is written.
#[derive(Clone, Debug, PartialEq, Eq)]
pub struct Paged {
    pub verdict: Verdict,
    pub page: Option<String>,
}

/// A check with a page buffer of `length` bytes. Where 26 refuses that, no page is written.
pub fn check_page(
    claim: &[u8],
    proof: &[u8],
    limits: &[u8],
    profile: Profile,
    room: usize,
    length: usize,
) -> Paged {
    if let Err(refusal) = refuse_if(26, length != LINES * (WIDTH + 1)) {
        return Paged { verdict: Err(refusal), page: None };
    }
    let verdict = check(claim, proof, limits, profile, room);
    let page = Some(page(&verdict));
    Paged { verdict, page }
}

/// The page of a verdict: its line, the first rows, and whether there are more.
fn page(verdict: &Verdict) -> String {
    let rows = shifted_rows(verdict);
    let mut lines = vec![first_line(verdict)];
    for (index, [p, q, r]) in rows.iter().take(ROWS).enumerate() {
        lines.push(format!("{index:>4}{p:>12}{q:>12}{r:>12}"));
    }
    lines.resize(LINES - 1, String::new());
    lines.push(String::from(if rows.len() > ROWS { "more" } else { "" }));
    lines.iter().map(|line| format!("{line:<WIDTH$}\n")).collect()
}
