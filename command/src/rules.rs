//! The table of refusals: `docs/FORMAT.md` has the same at more length.

use std::fmt;

/// A refusal of the library: the sheet at fault, the number and the index.
#[derive(Clone, Copy, Debug, PartialEq, Eq)]
pub struct Refusal {
    pub sheet: u32,
    pub number: u32,
    pub index: usize,
}

impl Refusal {
    /// The refusal in an answer; none where that is no refusal.
    pub fn of(answer: u64) -> Option<Refusal> {
        let part = |shift: u32| (answer >> shift & 0xffff) as u32;
        let refusal = Refusal { sheet: part(32), number: part(16), index: part(0) as usize };
        (answer > 0xffff).then_some(refusal)
    }

    /// The row of the table.
    pub fn rule(&self) -> &'static Rule {
        rule(self.number).expect("the table has every number that the library says")
    }
}

impl fmt::Display for Refusal {
    fn fmt(&self, f: &mut fmt::Formatter) -> fmt::Result {
        write!(f, "refused {} at {}", self.number, self.index)
    }
}

/// A row of the table.
pub struct Rule {
    pub number: u32,
    pub sheet: Sheet,
    pub wrong: &'static str,
    /// What the index counts.
    pub index: Index,
    pub remedy: &'static str,
}

/// The sheets at fault, as the library numbers them.
#[derive(Clone, Copy, Debug, PartialEq, Eq)]
pub enum Sheet {
    Claim = 1,
    Proof,
    Output,
    Offsets,
    Range,
    Limits,
    Page,
    Profile,
    Buffer,
}

impl fmt::Display for Sheet {
    fn fmt(&self, f: &mut fmt::Formatter) -> fmt::Result {
        write!(f, "{}", format!("{self:?}").to_lowercase())
    }
}

/// What an index counts.
#[derive(Clone, Copy, Debug, PartialEq, Eq)]
pub enum Index {
    Nothing,
    Term,
    Row,
    Variable,
    /// A term, the constant or a pure power.
    Point,
}

impl fmt::Display for Index {
    fn fmt(&self, f: &mut fmt::Formatter) -> fmt::Result {
        f.write_str(match self {
            Index::Nothing => "0, for the whole",
            Index::Term => "the term",
            Index::Row => "the row",
            Index::Variable => "the variable",
            Index::Point => {
                "the term; t for a constant that the claim lacks; t + 1 + i for a pure power of \
                 variable i that the claim lacks and its limit adds"
            }
        })
    }
}

/// The row of a number.
pub fn rule(number: u32) -> Option<&'static Rule> {
    RULES.iter().find(|rule| rule.number == number)
}

const fn row(
    number: u32,
    sheet: Sheet,
    wrong: &'static str,
    index: Index,
    remedy: &'static str,
) -> Rule {
    Rule { number, sheet, wrong, index, remedy }
}

/// The table.
#[rustfmt::skip]
pub const RULES: &[Rule] = &[
    row(1, Sheet::Claim, "it has under 8 bytes", Index::Nothing,
        "Write the whole header."),
    row(2, Sheet::Claim, "n, t, a mask bit at or above n, or byte 3", Index::Nothing,
        "Look at the first four bytes: n is 1 to 8, t at most 64, the mask under 2^n, byte 3 zero."),
    row(3, Sheet::Claim, "its length is not 8 + t × (n + 4)", Index::Nothing,
        "Count: an exponent has one byte, a coefficient four."),
    row(4, Sheet::Claim, "the floor is beyond ±2^30", Index::Nothing,
        "Choose a coarser unit for f and b. If it should be small: byte order and sign."),
    row(5, Sheet::Claim, "a coefficient is 0 or beyond ±2^30", Index::Term,
        "Leave a zero term out; else choose a coarser unit for f and b."),
    row(6, Sheet::Claim, "an exponent is over the profile's", Index::Term,
        "Over 120 such a term can't be carried; up to 120 a larger profile takes it. If it should be small: n, or the points' place."),
    row(7, Sheet::Claim, "a point is not above the one before", Index::Term,
        "Add up terms of one point, and sort by the first variable first."),
    row(8, Sheet::Proof, "it has under 8 bytes", Index::Nothing,
        "Write the whole header. Do the claim's n and t fit its bytes?"),
    row(9, Sheet::Proof, "n is not the claim's, k is over the profile's rows, or byte 1 or S", Index::Nothing,
        "Look at the first eight bytes: S is 1 to 2^20; up to 256 rows a larger profile takes."),
    row(10, Sheet::Proof, "its length is not 8 + k × (2n + 12)", Index::Nothing,
        "Count rows and triples. Nothing may follow, not even a line feed."),
    row(11, Sheet::Output, "it is shorter than the proof", Index::Nothing,
        "Hand over at least the proof's length."),
    row(12, Sheet::Proof, "an exponent is over the profile's", Index::Row,
        "Choose other ends, or leave the row out; up to 120 a larger profile takes it."),
    row(13, Sheet::Proof, "v + w is odd in some coordinate", Index::Row,
        "Choose ends that are both even or both odd in each variable."),
    row(14, Sheet::Proof, "a lone row's q or r is not 0", Index::Row,
        "Put its whole weight into p; or one end is wrong."),
    row(15, Sheet::Proof, "a proposed weight is beyond ± the profile's", Index::Row,
        "Take a smaller S, or repeat the row and split its weights; up to 2^30 a larger profile takes it."),
    row(16, Sheet::Proof, "a target is not 0 and no row has a slot there", Index::Point,
        "Add a row with a slot at this point: lone or an end where the target is positive, a midpoint where it is negative. Where it is negative at the constant: lower the floor, or an m."),
    row(17, Sheet::Proof, "a shifted weight is beyond ± the profile's", Index::Row,
        "Take a smaller S, or more slots there, proposed alike; up to 2^30 a larger profile takes it."),
    row(18, Sheet::Proof, "a shifted p or q is negative", Index::Row,
        "If the target at this end is negative, make it the midpoint of a pair with r < 0, and at the constant lower the floor; if its coefficient is positive and its odd variables are never negative, mask them. Else give this end more, or the other slots there less."),
    row(19, Sheet::Proof, "r × r is over 4 × p × q after the shift", Index::Row,
        "Where the row has a slot at the constant, lower the floor; else give its p or q more, or raise S where there was room before rounding. A positive r that is too large belongs in a lone row."),
    row(20, Sheet::Offsets, "their count is not n", Index::Nothing,
        "Hand over one offset for each variable."),
    row(21, Sheet::Claim, "a term's absolute value is over 2^56", Index::Term,
        "No exact value is given there. An accepted floor holds there all the same, if mask and limits admit the offsets."),
    row(22, Sheet::Range, "lo is over hi, either is beyond ±2^30, or hi − lo is over 4,095", Index::Nothing,
        "Hand over lo before hi, at most 4,095 apart; a longer range goes in pieces, the highest first."),
    row(23, Sheet::Range, "no floor from lo to hi is accepted", Index::Nothing,
        "Check the claim with lo, the floor that leaves most room: its refusal says why."),
    row(24, Sheet::Limits, "the length is not 1 + 7n, or n is not the claim's", Index::Nothing,
        "Count: an entry has three bytes, a multiplier four. To limit no variable: n and 7n zero bytes."),
    row(25, Sheet::Limits, "a power is not 0, 2 or 4; L is not 1 to 1,023 or m over 65,536; or they are not 0 with power 0", Index::Variable,
        "Look at the order of bytes. A variable that goes further: choose a coarser unit for it, or leave it unlimited. A larger m: take a smaller S."),
    row(26, Sheet::Page, "the page buffer is not 2,920 bytes", Index::Nothing,
        "Hand over 40 × 73 bytes, no more and no fewer."),
    row(27, Sheet::Profile, "the exponent is over 120, the weight is 0 or over 2^30, or the rows are over 256", Index::Nothing,
        "Hand over the three numbers in their order, each in range; the full profile is 120,1073741824,256."),
    row(30, Sheet::Buffer, "it is shorter than the text", Index::Nothing,
        "Hand over the greatest length of a text of its kind, as the header has it."),
];
