//! What the program makes of its standard input, and what it prints.

use crate::check::check_unlimited;
use crate::claim;
use crate::verdict::{shifted_rows, Accepted, Verdict};
use std::fmt::Write;

/// The program reads no more than this many bytes.
const MOST_INPUT: usize = 8192;

/// The lines that the program prints for its input.
pub fn text(input: &[u8]) -> String {
    printed(&verdict(input))
}

/// The verdict on the input: the claim as long as its header says, directly after it the proof, no
/// variable limited, the full profile, an output as long as the proof.
pub fn verdict(input: &[u8]) -> Verdict {
    let (claim, proof) = split(&input[..input.len().min(MOST_INPUT)]);
    check_unlimited(claim, proof, proof.len())
}

/// The lines that the program prints for a verdict.
pub fn printed(verdict: &Verdict) -> String {
    let mut text = first_line(verdict) + "\n";
    for (index, [p, q, r]) in shifted_rows(verdict).iter().enumerate() {
        writeln!(text, "row {index} p {p} q {q} r {r}").expect("a string takes any text");
    }
    text
}

/// The first of these lines, without its line feed.
pub fn first_line(verdict: &Verdict) -> String {
    match verdict {
        Ok(Accepted { floor, scale, weights, .. }) => {
            format!("accepted rows {} scale {scale} floor {floor}", weights.len())
        }
        Err(refusal) => refusal.to_string(),
    }
}

/// The claim and the proof in the input. The whole input is the claim where 1 or 2 refuses it or
/// it is shorter than its header says.
fn split(input: &[u8]) -> (&[u8], &[u8]) {
    let end = match claim::header(input) {
        Ok((n, t)) => claim::length(n, t).min(input.len()),
        Err(_) => input.len(),
    };
    input.split_at(end)
}
