//! Sheets and profiles as text: named ones with what is written for them or the number that refuses
//! them, and the longest of each kind.

use crate::worked::{g, square_case};
use crate::{limited, Case, Claim, Limit, Limits, Profile, Proof, MOST, MOST_TERMS};
use refusals::EntryPoint::{self, ClaimText, LimitsText, ProfileText, ProofText};

/// A case, the entry point that writes its text, and the text or the number of the refusal.
pub struct Listed {
    pub name: &'static str,
    pub entry_point: EntryPoint,
    pub case: Case,
    pub outcome: Result<&'static str, u32>,
}

/// A case at the greatest values, the entry point that writes its text, and the text's length.
pub struct Longest {
    pub entry_point: EntryPoint,
    pub case: Case,
    pub length: usize,
}

/// Every named case.
pub fn cases() -> Vec<Listed> {
    [claims(), proofs(), limits(), profiles()].into_iter().flatten().collect()
}

fn claims() -> Vec<Listed> {
    let listed = |name, claim: Claim, text| Listed {
        name,
        entry_point: ClaimText,
        case: Case { claim: claim.bytes(), ..square_case() },
        outcome: Ok(text),
    };
    let masked = Claim::new(-MOST, &[([0, 0, 0, 0, 0, 0, 0, 120], MOST), ([1; 8], -MOST)]);
    vec![
        listed("claim of G", g().claim, G_CLAIM),
        listed("claim without terms", Claim::new::<1>(0, &[]), NO_TERMS),
        listed("claim of eight masked variables", masked.masked(255), EIGHT_MASKED),
    ]
}

fn proofs() -> Vec<Listed> {
    let listed = |name, proof, outcome| Listed {
        name,
        entry_point: ProofText,
        case: Case { proof, ..square_case() },
        outcome,
    };
    let lone = Proof::new(1, &[([0, 0], [2, 4], [1, 1, -2]), ([2, 2], [2, 2], [3, 0, 0])]);
    let eight = Proof::new(1 << 20, &[([1; 8], [3; 8], [-MOST, MOST, 0])]);
    let of_variables = |n| Proof { n, scale: 1, rows: vec![] }.bytes();
    let nine = Proof::new(1, &[([0; 9], [2; 9], [1, 1, -2])]);
    vec![
        listed("proof of G", g().proof.bytes(), Ok(G_PROOF)),
        listed("proof with a lone row", lone.bytes(), Ok(LONE_ROW)),
        listed("proof without rows", of_variables(3), Ok(NO_ROWS)),
        listed("proof of eight variables", eight.bytes(), Ok(EIGHT_ENDS)),
        listed("proof of 0 variables", of_variables(0), Err(9)),
        listed("proof of 9 variables", of_variables(9), Err(9)),
        listed("proof of 255 variables", of_variables(255), Err(9)),
        listed("row of 9 variables", nine.bytes(), Err(9)),
        listed("proof of 0 variables, cut", of_variables(0)[..7].to_vec(), Err(8)),
    ]
}

fn limits() -> Vec<Listed> {
    let listed = |name, limits: Limits, outcome| Listed {
        name,
        entry_point: LimitsText,
        case: square_case().limited(&limits),
        outcome,
    };
    let second = Limits::new(&[Limit::UNLIMITED, Limit::new(4, 1, 0), Limit::UNLIMITED]);
    let mut cut = Limits::none(2);
    cut.entries.pop();
    vec![
        listed("limits of the line", limited::line().limits, Ok(LINE)),
        listed("limits of no variable", Limits::none(2), Ok(UNLIMITED)),
        listed("limits of the second variable", second, Ok(SECOND)),
        listed("limits of 0 variables", Limits::none(0), Err(24)),
        listed("limits of 9 variables", Limits::none(9), Err(24)),
        listed("limits of 255 variables", Limits::none(255), Err(24)),
        listed("limits of 2 variables, cut", cut, Err(24)),
    ]
}

fn profiles() -> Vec<Listed> {
    let listed = |name, profile, outcome| Listed {
        name,
        entry_point: ProfileText,
        case: square_case().under(profile),
        outcome,
    };
    let too_many = Profile { rows: 257, ..Profile::FULL };
    vec![
        listed("full profile", Profile::FULL, Ok(FULL)),
        listed("least profile", Profile::LEAST, Ok(LEAST)),
        listed("profile out of range", too_many, Err(27)),
    ]
}

/// The longest text of each kind: every number has as many characters as it can.
pub fn longest() -> [Longest; 4] {
    let term =
        |index: u8| (vec![100, 100, 100, 100, 100, 100, 100 + index / 20, 100 + index % 20], -MOST);
    let terms = (0..MOST_TERMS as u8).map(term).collect();
    let claim = Claim { n: 8, mask: 255, floor: -MOST, terms };
    let proof = Proof::new(1 << 20, &[([100; 8], [120; 8], [-MOST; 3]); 256]);
    let limits = Limits::new(&[Limit::new(4, 1023, 65_536); 8]);
    let case = Case::new(&claim, &proof).limited(&limits);
    [(ClaimText, 4771), (ProofText, 31_410), (LimitsText, 395), (ProfileText, 48)]
        .map(|(entry_point, length)| Longest { entry_point, case: case.clone(), length })
}

const G_CLAIM: &str = "claim\n\
    variables 2\n\
    mask 0\n\
    floor 0\n\
    term 0 coefficient 1 exponents 0 0\n\
    term 1 coefficient -3 exponents 2 2\n\
    term 2 coefficient 1 exponents 2 4\n\
    term 3 coefficient 1 exponents 4 2\n";

const NO_TERMS: &str = "claim\nvariables 1\nmask 0\nfloor 0\n";

const EIGHT_MASKED: &str = "claim\n\
    variables 8\n\
    mask 255\n\
    floor -1073741824\n\
    term 0 coefficient 1073741824 exponents 0 0 0 0 0 0 0 120\n\
    term 1 coefficient -1073741824 exponents 1 1 1 1 1 1 1 1\n";

const G_PROOF: &str = "proof\n\
    variables 2\n\
    scale 1\n\
    row 0 pair v 0 0 w 2 4 p 1 q 1 r -2\n\
    row 1 pair v 1 2 w 3 2 p 2 q 2 r -4\n\
    row 2 pair v 2 2 w 4 2 p 1 q 1 r -2\n";

const LONE_ROW: &str = "proof\n\
    variables 2\n\
    scale 1\n\
    row 0 pair v 0 0 w 2 4 p 1 q 1 r -2\n\
    row 1 lone v 2 2 p 3\n";

const NO_ROWS: &str = "proof\nvariables 3\nscale 1\n";

const EIGHT_ENDS: &str = "proof\n\
    variables 8\n\
    scale 1048576\n\
    row 0 pair v 1 1 1 1 1 1 1 1 w 3 3 3 3 3 3 3 3 p -1073741824 q 1073741824 r 0\n";

const LINE: &str = "limits\nvariables 1\nvariable 0 power 2 limit 5 multiplier 1\n";

const UNLIMITED: &str = "limits\nvariables 2\n";

const SECOND: &str = "limits\nvariables 3\nvariable 1 power 4 limit 1 multiplier 0\n";

const FULL: &str = "profile\nexponent 120\nweight 1073741824\nrows 256\n";

const LEAST: &str = "profile\nexponent 0\nweight 1\nrows 0\n";
