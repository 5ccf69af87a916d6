//! Larger profiles: what the library does not refuse under a profile it answers alike under every
//! larger one in range, and writes the same bytes. No oracle is asked.

use harness::report::{equal, Outcome, Report};
use sheets::random::{larger, Kind, Rng};
use sheets::{Case, Profile};
use std::fmt::Debug;

/// How many cases of each kind are looked at.
const CASES: usize = 500;

pub fn run(report: &mut Report) {
    for kind in [Kind::Accepted, Kind::Extreme, Kind::Found] {
        report.add(&format!("larger profiles for {kind}"), are_answered_alike(kind));
    }
}

/// Cases under profiles that are not full, and the same under larger ones. Of each entry point's
/// answers some are no refusals.
fn are_answered_alike(kind: Kind) -> Outcome {
    let mut rng = Rng::new(1);
    let mut answered = [0; 4];
    for _ in 0..CASES {
        let case = kind.case(&mut rng);
        if case.profile == Profile::FULL {
            continue;
        }
        let more = case.clone().under(larger(&mut rng, case.profile));
        let alike = [
            is_alike(check, &case, &more),
            is_alike(check_page, &case, &more),
            is_alike(evaluate, &case, &more),
            is_alike(search, &case, &more),
        ];
        for (answered, alike) in answered.iter_mut().zip(alike) {
            *answered += usize::from(alike.map_err(|difference| {
                format!("{difference}\nunder {:?}: {case:?}", more.profile)
            })?);
        }
    }
    equal("each entry point answers", &true, &answered.iter().all(|&answered| answered > 0))
}

/// The call is refused under the first profile, and then nothing is said of the larger one, or the
/// answer, what is written and what is stored are the same.
fn is_alike<T: PartialEq + Debug>(
    call: fn(&Case) -> (u64, T),
    case: &Case,
    more: &Case,
) -> Result<bool, String> {
    let answered = call(case);
    if is_refused(answered.0) {
        return Ok(false);
    }
    equal("the answer under a larger profile", &answered, &call(more))?;
    Ok(true)
}

fn is_refused(answer: u64) -> bool {
    answer >= 1 << 16
}

/// The answer to a check, and the output.
fn check(case: &Case) -> (u64, Vec<u8>) {
    let Case { claim, proof, limits, profile, room, .. } = case;
    let mut output = vec![0; *room];
    (burmelox::check(claim, proof, limits, *profile, &mut output), output)
}

/// The answer to a check with a page, the output and the page.
fn check_page(case: &Case) -> (u64, [Vec<u8>; 2]) {
    let Case { claim, proof, limits, profile, room, page, .. } = case;
    let (mut output, mut page) = (vec![0; *room], vec![0; *page]);
    let answer = burmelox::check_page(claim, proof, limits, *profile, &mut output, &mut page);
    (answer, [output, page])
}

/// The answer to an evaluation, and the value.
fn evaluate(case: &Case) -> (u64, i64) {
    let mut value = 0;
    (burmelox::evaluate(&case.claim, case.profile, &case.offsets, &mut value), value)
}

/// The answer to a search, the floor, the number of floors tried and the output.
fn search(case: &Case) -> (u64, (i64, u32, Vec<u8>)) {
    let Case { claim, proof, limits, profile, room, lo, hi, .. } = case;
    let (mut output, mut floor, mut tried) = (vec![0; *room], 0, 0);
    let (profile, lo, hi, lent) = (*profile, *lo, *hi, &mut output);
    let answer =
        burmelox::search(claim, proof, limits, profile, lo, hi, lent, &mut floor, &mut tried);
    (answer, (floor, tried, output))
}
