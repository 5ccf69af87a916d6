//! The advice on refusals by 16 to 19: it goes by the right targets and shifted weights.

use crate::binary;
use burmelox_command::advice::advice;
use burmelox_command::balance::Balance;
use burmelox_command::library;
use burmelox_command::rules::Refusal;
use burmelox_command::sheet::{Claim, Limits, Proof};
use harness::report::{equal, Outcome, Report};
use sheets::random::{Kind, Rng};
use sheets::Case;

/// So many random cases of each kind.
const CASES: usize = 2000;

pub fn run(report: &mut Report) {
    report.add(
        "shifted weights of accepted cases",
        each(&[Kind::Accepted, Kind::Extreme], are_shifted),
    );
    for number in 16..=19 {
        let kind = [Kind::Refused(number)];
        report.add(&format!("advice on {number}"), each(&kind, is_advised));
    }
    report.add("advice on 17 by the profile", each(&[Kind::Tight(17)], is_advised));
    report.add("advice where only ends stand", is_told_of_ends());
    report.add("advice with ends that other rows bear", is_told_of_borne_ends());
    report.add("advice on the constant without a slot", is_told_of_constant());
}

/// Quartic terms and two mixed ones, with ends at (2,0) and (0,2), where there is no term.
const BARE: &str = "claim\nvariables 2\nfloor -10\nterm coefficient 1 exponents 0 0\n\
    term coefficient 1 exponents 4 0\nterm coefficient 1 exponents 0 4\n\
    term coefficient -1 exponents 1 2\nterm coefficient -1 exponents 2 1\nproof\nvariables 2\n\
    scale 1000\nrow pair v 4 0 w 0 2 p 0.3 q 0.8 r -1.0\nrow pair v 0 4 w 2 0 p 0.3 q 0.8 r -1.0\n\
    row lone v 0 0 p 1.0\n";

/// No weights, scale or floor are proposed where only ends stand at a point without a term.
fn is_told_of_ends() -> Outcome {
    let told = "(0,2) has no term and only ends stand there, so their weights come to 0: add a \
                pair with r < 0 whose midpoint is (0,2), as (0,0)(0,4)\n";
    let checked = binary::run_with(&["check", "-"], BARE.as_bytes());
    equal("a check's advice", &true, &checked.text().ends_with(told))?;
    let range = ["search", "-", "--from", "-20", "--to", "0"];
    let searched = binary::run_with(&range, BARE.as_bytes()).text();
    let why = "refused 19 at 0; row 0 has no slot at the constant, so no floor helps: ";
    equal("a search's advice", &true, &(searched.contains(why) && searched.ends_with(told)))?;
    let added =
        "row pair v 0 0 w 0 4 p 0.9 q 0.2 r -0.8\nrow pair v 0 0 w 4 0 p 0.9 q 0.2 r -0.8\n";
    binary::run_with(&["check", "-"], (BARE.to_string() + added).as_bytes()).ends_with(0)
}

/// Motzkin's polynomial without the last row of its proof: that row is proposed, whose end (2,2) is
/// another row's midpoint.
fn is_told_of_borne_ends() -> Outcome {
    let text = binary::run(&["decode", "examples/G.sheet"]).text();
    let text: String = text
        .lines()
        .filter(|line| !line.starts_with("row 2 "))
        .map(|line| format!("{line}\n"))
        .collect();
    let run = binary::run_with(&["check", "-"], (text + "row lone v 4 2 p 1\n").as_bytes()).text();
    let told = "whose midpoint is (3,2), as (2,2)(4,2)\n";
    equal("the pair", &true, &run.ends_with(told))
}

/// The floor is to be lowered for a negative target alone, and never to be raised.
fn is_told_of_constant() -> Outcome {
    for (floor, told) in [
        (-2, "is 2: add a lone row there, or a pair with an end there\n"),
        (3, "is -3: lower the floor: try 0\n"),
    ] {
        let text = format!(
            "claim\nvariables 1\nfloor {floor}\nterm coefficient 1 exponents 2\nproof\n\
             variables 1\nscale 1\nrow lone v 2 p 1\n"
        );
        let run = binary::run_with(&["check", "-"], text.as_bytes()).text();
        equal(&format!("floor {floor}"), &true, &run.ends_with(told))?;
    }
    Ok(())
}

fn each(kinds: &[Kind], test: fn(&Case) -> Outcome) -> Outcome {
    let mut rng = Rng::new(1);
    (0..CASES).try_for_each(|index| {
        let case = kinds[index % kinds.len()].case(&mut rng);
        test(&case).map_err(|words| format!("case {index}: {words}\n{case:?}"))
    })
}

/// The fields of sheets whose lengths are right.
fn fields(case: &Case) -> (Claim, Proof, Limits) {
    let Case { claim, proof, limits, .. } = case;
    let fields = (Claim::read(claim), Proof::read(proof), Limits::read(limits));
    (fields.0.expect("a claim"), fields.1.expect("a proof"), fields.2.expect("limits"))
}

/// The shifted weights are the oracle's.
fn are_shifted(case: &Case) -> Outcome {
    let (claim, proof, limits) = fields(case);
    let Case { profile, room, .. } = *case;
    let accepted = oracle::check(&case.claim, &case.proof, &case.limits, profile, room);
    let weights = accepted.map_err(|refusal| refusal.to_string())?.weights;
    let weights: Vec<[i128; 3]> = weights.iter().map(|row| row.map(i128::from)).collect();
    equal("the shifted weights", &weights, &Balance::new(&claim, &proof, &limits).shifted)
}

/// The library's refusal of a case.
fn refusal(case: &Case) -> Option<Refusal> {
    library::check(&case.claim, &case.proof, &case.limits, case.profile).exact.err()
}

/// What is said of a refusal is so: the first row that breaks its rule, or a target without slot.
/// A floor to try mends that row or that point.
fn is_advised(case: &Case) -> Outcome {
    let refusal = refusal(case).ok_or("the case is accepted")?;
    let (claim, proof, limits) = fields(case);
    let balance = Balance::new(&claim, &proof, &limits);
    let words = advice(&balance, case.profile, refusal).ok_or("there is no advice")?;
    let first = match refusal.number {
        16 => unheld(&balance, refusal.index),
        number => {
            let breaks = |weights| breaks(number, case.profile.weight.into(), weights);
            balance.shifted.iter().position(breaks)
        }
    };
    equal("the index", &Some(refusal.index), &first)?;
    let [p, _, _] = balance.shifted.get(refusal.index).copied().unwrap_or_default();
    let told = match refusal.number {
        16 => format!("is {}: ", balance.target(&balance.point(refusal.index))),
        _ => format!("shifted p {p}"),
    };
    equal("the advice tells the number", &true, &words.contains(&told))?;
    if words.contains("a larger scale") {
        let is_rounding = balance.moved(refusal.index).iter().all(|by| by.abs() <= 1);
        equal("a larger scale is for rounding alone", &true, &is_rounding)?;
    }
    floor_helps(case, refusal, &words)
}

/// The index where its point has a target and no slot.
fn unheld(balance: &Balance, index: usize) -> Option<usize> {
    let point = balance.point(index);
    (balance.target(&point) != 0 && balance.slots(&point) == 0).then_some(index)
}

/// A row's shifted weights break the rule of the number.
fn breaks(number: u32, most: i128, &[p, q, r]: &[i128; 3]) -> bool {
    match number {
        17 => [p, q, r].iter().any(|weight| weight.abs() > most),
        18 => p < 0 || q < 0,
        _ => r * r > 4 * p * q,
    }
}

/// With the floor that the advice has to try, the same place is not refused by the same number.
fn floor_helps(case: &Case, refusal: Refusal, words: &str) -> Outcome {
    let Some((_, floor)) = words.split_once(" the floor: try ") else { return Ok(()) };
    let floor: i32 = floor.parse().map_err(|_| format!("no floor in {words}"))?;
    let mut tried = case.clone();
    tried.claim[4..8].copy_from_slice(&floor.to_le_bytes());
    let again = self::refusal(&tried);
    let same = |other: &Refusal| (other.number, other.index) == (refusal.number, refusal.index);
    equal("the floor to try is refused alike", &false, &again.is_some_and(|other| same(&other)))
}
