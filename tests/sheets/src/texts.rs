//! The examples as text, to stand beside their sheets: a comment that says what each shows, then
//! what the oracle writes of it. Some proofs have their weights in decimals instead.

use crate::limited::LimitedExample;
use crate::{decimals, Example};
use oracle::{claim_text, limits_text, proof_text};

/// What each example shows.
const TABLE: &str = include_str!("../../../examples/README.md");

/// The text of the example's claim and proof, where both have one.
pub fn of_sheet(example: &Example) -> Option<String> {
    let claim = claim_text(&example.claim.bytes(), usize::MAX).ok()?;
    let proof = proof_text(&example.proof.bytes(), usize::MAX).ok()?;
    let proof = decimals::proof(example.name).map_or(proof, String::from);
    Some(format!("# {}: {}\n{claim}{proof}", example.name, shown(example.name)))
}

/// The text of the example's limits, where they have one.
pub fn of_limits(limited: &LimitedExample) -> Option<String> {
    let limits = limits_text(&limited.limits.bytes(), usize::MAX).ok()?;
    Some(format!("# The limits of {}.sheet.\n{limits}", limited.example.name))
}

/// What an example shows, by the row of the table that names it.
fn shown(name: &str) -> &'static str {
    let rows = TABLE.lines().filter_map(|line| line.strip_prefix("| ")?.strip_suffix(" |"));
    let mut rows = rows.filter_map(|row| row.split_once(" | "));
    let row = rows.find(|(names, _)| names.split(", ").any(|other| other == name));
    row.expect("the table has every example").1
}
