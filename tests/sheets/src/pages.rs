//! Examples with the page that a check writes for them, note 6 of document 02, and proofs of any
//! number of rows.

use crate::{worked, Case, Claim, Example, Proof, Row};
use std::collections::BTreeMap;

/// An example and its page.
pub struct PagedExample {
    pub example: Example,
    pub page: String,
}

/// An accepted proof, a refused one, and one with more rows than a page has room for.
pub fn examples() -> Vec<PagedExample> {
    let paged = |example, first: &[&str], last| PagedExample { example, page: page(first, last) };
    vec![
        paged(worked::g(), &G_LINES, ""),
        paged(worked::d(), &["refused 19 at 0"], ""),
        paged(forty_rows(), &FORTY_LINES, "more"),
    ]
}

/// The page of the first lines and the last one, which have no spaces at their ends.
fn page(first: &[&str], last: &str) -> String {
    let mut lines = first.to_vec();
    lines.resize(39, "");
    lines.push(last);
    lines.iter().map(|line| format!("{line:72}\n")).collect()
}

/// The sum of i × (xⁱ − 1)² for i from 1 to 40, each square a row. The floor is 0, its value at 1.
pub fn forty_rows() -> Example {
    let row = |i: u8| ([0], [2 * i], [i.into(), i.into(), -2 * i32::from(i)]);
    let proof = Proof::new(1, &(1..=40).map(row).collect::<Vec<_>>());
    let mut terms = BTreeMap::new();
    for (point, weight) in proof.rows.iter().flat_map(Row::slots) {
        *terms.entry(point).or_default() += weight;
    }
    let claim = Claim { n: 1, mask: 0, floor: 0, terms: terms.into_iter().collect() };
    Example { name: "forty-rows", claim, proof, text: FORTY_TEXT }
}

/// `k` lone rows at the constant, weighted with their indices. The claim has no terms, and its
/// floor is as far under 0 as the weights add up to.
pub fn lone_rows(k: i32) -> Case {
    let rows: Vec<_> = (0..k).map(|row| ([0], [0], [row, 0, 0])).collect();
    let floor = -(0..k).sum::<i32>();
    Case::new(&Claim::new::<1>(floor, &[]), &Proof::new(1, &rows))
}

const G_LINES: [&str; 4] = [
    "accepted rows 3 scale 1 floor 0",
    "   0           1           1          -2",
    "   1           2           2          -4",
    "   2           1           1          -2",
];

const FORTY_TEXT: &str = "accepted rows 40 scale 1 floor 0\n\
    row 0 p 1 q 1 r -2\n\
    row 1 p 2 q 2 r -4\n\
    row 2 p 3 q 3 r -6\n\
    row 3 p 4 q 4 r -8\n\
    row 4 p 5 q 5 r -10\n\
    row 5 p 6 q 6 r -12\n\
    row 6 p 7 q 7 r -14\n\
    row 7 p 8 q 8 r -16\n\
    row 8 p 9 q 9 r -18\n\
    row 9 p 10 q 10 r -20\n\
    row 10 p 11 q 11 r -22\n\
    row 11 p 12 q 12 r -24\n\
    row 12 p 13 q 13 r -26\n\
    row 13 p 14 q 14 r -28\n\
    row 14 p 15 q 15 r -30\n\
    row 15 p 16 q 16 r -32\n\
    row 16 p 17 q 17 r -34\n\
    row 17 p 18 q 18 r -36\n\
    row 18 p 19 q 19 r -38\n\
    row 19 p 20 q 20 r -40\n\
    row 20 p 21 q 21 r -42\n\
    row 21 p 22 q 22 r -44\n\
    row 22 p 23 q 23 r -46\n\
    row 23 p 24 q 24 r -48\n\
    row 24 p 25 q 25 r -50\n\
    row 25 p 26 q 26 r -52\n\
    row 26 p 27 q 27 r -54\n\
    row 27 p 28 q 28 r -56\n\
    row 28 p 29 q 29 r -58\n\
    row 29 p 30 q 30 r -60\n\
    row 30 p 31 q 31 r -62\n\
    row 31 p 32 q 32 r -64\n\
    row 32 p 33 q 33 r -66\n\
    row 33 p 34 q 34 r -68\n\
    row 34 p 35 q 35 r -70\n\
    row 35 p 36 q 36 r -72\n\
    row 36 p 37 q 37 r -74\n\
    row 37 p 38 q 38 r -76\n\
    row 38 p 39 q 39 r -78\n\
    row 39 p 40 q 40 r -80\n";

const FORTY_LINES: [&str; 39] = [
    "accepted rows 40 scale 1 floor 0",
    "   0           1           1          -2",
    "   1           2           2          -4",
    "   2           3           3          -6",
    "   3           4           4          -8",
    "   4           5           5         -10",
    "   5           6           6         -12",
    "   6           7           7         -14",
    "   7           8           8         -16",
    "   8           9           9         -18",
    "   9          10          10         -20",
    "  10          11          11         -22",
    "  11          12          12         -24",
    "  12          13          13         -26",
    "  13          14          14         -28",
    "  14          15          15         -30",
    "  15          16          16         -32",
    "  16          17          17         -34",
    "  17          18          18         -36",
    "  18          19          19         -38",
    "  19          20          20         -40",
    "  20          21          21         -42",
    "  21          22          22         -44",
    "  22          23          23         -46",
    "  23          24          24         -48",
    "  24          25          25         -50",
    "  25          26          26         -52",
    "  26          27          27         -54",
    "  27          28          28         -56",
    "  28          29          29         -58",
    "  29          30          30         -60",
    "  30          31          31         -62",
    "  31          32          32         -64",
    "  32          33          33         -66",
    "  33          34          34         -68",
    "  34          35          35         -70",
    "  35          36          36         -72",
    "  36          37          37         -74",
    "  37          38          38         -76",
];
