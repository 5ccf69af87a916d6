//! The table of refusal numbers: the sheet each of them blames, the entry points that say it, and
//! the order of checks. A request that adds a number adds a row here.

use EntryPoint::{Check, Evaluation, PageCheck, Program, Search};
use EntryPoint::{ClaimText, LimitsText, ProfileText, ProofText};
use Sheet::{Buffer, Claim, Limits, Offsets, Output, Page, Profile, Proof, Range};

/// The sheet at fault, numbered as the library's answers have it.
#[derive(Clone, Copy, Debug, PartialEq, Eq)]
pub enum Sheet {
    Claim = 1,
    Proof = 2,
    Output = 3,
    Offsets = 4,
    Range = 5,
    Limits = 6,
    Page = 7,
    Profile = 8,
    Buffer = 9,
    Table = 10,
    Site = 11,
}

/// Where refusals are said: the library's check, the same with a page, its evaluation, its search,
/// its texts of the sheets and of a profile, and the program.
#[derive(Clone, Copy, Debug, PartialEq, Eq, PartialOrd, Ord)]
pub enum EntryPoint {
    Check,
    PageCheck,
    Evaluation,
    Search,
    ClaimText,
    ProofText,
    LimitsText,
    ProfileText,
    Program,
}

/// The library's entry points.
pub const LIBRARY: [EntryPoint; 8] =
    [Check, PageCheck, Evaluation, Search, ClaimText, ProofText, LimitsText, ProfileText];

/// Those that write a text. They read one sheet each, under the full profile.
pub const TEXTS: [EntryPoint; 4] = [ClaimText, ProofText, LimitsText, ProfileText];

/// A row of the table.
pub struct Rule {
    pub number: u32,
    pub sheet: Sheet,
    pub entry_points: &'static [EntryPoint],
}

impl Rule {
    const fn new(number: u32, sheet: Sheet, entry_points: &'static [EntryPoint]) -> Rule {
        Rule { number, sheet, entry_points }
    }

    pub fn is_said_by(&self, entry_point: EntryPoint) -> bool {
        self.entry_points.contains(&entry_point)
    }
}

/// What reads a claim.
const CLAIM_READERS: &[EntryPoint] = &[Check, PageCheck, Evaluation, Search, ClaimText, Program];

/// What reads a proof.
const PROOF_READERS: &[EntryPoint] = &[Check, PageCheck, Search, ProofText, Program];

/// What reads limits.
const LIMITS_READERS: &[EntryPoint] = &[Check, PageCheck, Search, LimitsText];

/// What reads a profile.
const PROFILE_READERS: &[EntryPoint] = &[Check, PageCheck, Evaluation, Search, ProfileText];

/// What is handed an output: the library's checks, of one floor or of several.
const LIBRARY_CHECKS: &[EntryPoint] = &[Check, PageCheck, Search];

/// What judges a proof of one floor. A search says none of why a floor is refused.
const JUDGES: &[EntryPoint] = &[Check, PageCheck, Program];

/// The rules in the order of their checks: the place in this list is the place in that order, and
/// the number says nothing of it: 26 and 27 stand before 1, 24 and 25 after 10, and 22 after 15.
/// Later requests put 38 before 26, 39 between 10 and 24, and 34 between 12 and 13. A text goes
/// through the numbers of its own sheet, and then 30. The program never says 11, since its output
/// is as long as the proof, nor 24 and 25, since it limits no variable, nor 27, since its profile
/// is the full one.
pub const RULES: &[Rule] = &[
    Rule::new(26, Page, &[PageCheck]),
    Rule::new(27, Profile, PROFILE_READERS),
    Rule::new(1, Claim, CLAIM_READERS),
    Rule::new(2, Claim, CLAIM_READERS),
    Rule::new(3, Claim, CLAIM_READERS),
    Rule::new(4, Claim, CLAIM_READERS),
    Rule::new(5, Claim, CLAIM_READERS),
    Rule::new(6, Claim, CLAIM_READERS),
    Rule::new(7, Claim, CLAIM_READERS),
    Rule::new(8, Proof, PROOF_READERS),
    Rule::new(9, Proof, PROOF_READERS),
    Rule::new(10, Proof, PROOF_READERS),
    Rule::new(24, Limits, LIMITS_READERS),
    Rule::new(25, Limits, LIMITS_READERS),
    Rule::new(11, Output, LIBRARY_CHECKS),
    Rule::new(12, Proof, PROOF_READERS),
    Rule::new(13, Proof, PROOF_READERS),
    Rule::new(14, Proof, PROOF_READERS),
    Rule::new(15, Proof, PROOF_READERS),
    Rule::new(22, Range, &[Search]),
    Rule::new(16, Proof, JUDGES),
    Rule::new(17, Proof, JUDGES),
    Rule::new(18, Proof, JUDGES),
    Rule::new(19, Proof, JUDGES),
    Rule::new(20, Offsets, &[Evaluation]),
    Rule::new(21, Claim, &[Evaluation]),
    Rule::new(23, Range, &[Search]),
    Rule::new(30, Buffer, &TEXTS),
];

/// The numbers of the checks that read the profile.
pub const BY_PROFILE: [u32; 5] = [6, 9, 12, 15, 17];

/// The rule of a number.
pub fn rule(number: u32) -> &'static Rule {
    let found = RULES.iter().find(|rule| rule.number == number);
    found.unwrap_or_else(|| panic!("no refusal has number {number}"))
}

/// The numbers that an entry point says, in the order of checks.
pub fn said_by(entry_point: EntryPoint) -> impl Iterator<Item = u32> {
    RULES.iter().filter(move |rule| rule.is_said_by(entry_point)).map(|rule| rule.number)
}

/// The numbers from the given one on, in the order of checks.
pub fn from(number: u32) -> impl Iterator<Item = u32> {
    RULES.iter().map(|rule| rule.number).skip_while(move |&other| other != number)
}

/// A refusal as the library answers it: sheet × 2^32 + number × 2^16 + index.
pub fn code(number: u32, index: usize) -> u64 {
    let sheet = rule(number).sheet as u64;
    sheet << 32 | u64::from(number) << 16 | index as u64
}
