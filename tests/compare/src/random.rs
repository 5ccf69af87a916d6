//! Random cases of every kind, held against the library and the program.

use crate::answers;
use harness::report::{Outcome, Report};
use refusals::EntryPoint::{self, Check, Evaluation, PageCheck, Program, Search};
use refusals::{rule, BY_PROFILE, TEXTS};
use sheets::random::{Kind, Rng};
use sheets::{Case, Profile};
use std::collections::BTreeMap;

/// How the cases are drawn, how many, and what they are held against.
pub struct Options {
    pub seed: u64,
    pub cases: usize,
    pub entry_points: Vec<EntryPoint>,
}

/// An entry point, and the number that it ended with; 0 stands for acceptances, values and texts.
type Met = (EntryPoint, u32);

/// How often each entry point ended with each number, and how often it did so by the profile alone.
#[derive(Default)]
struct Counts {
    all: BTreeMap<Met, usize>,
    by_profile: BTreeMap<Met, usize>,
}

pub fn run(report: &mut Report, options: &Options) {
    let Options { seed, entry_points, .. } = options;
    let kinds = Kind::all();
    let mut seeds = Rng::new(*seed);
    let mut counts = Counts::default();
    for (index, &kind) in kinds.iter().enumerate() {
        let mut rng = Rng::new(seeds.bits());
        let cases = (options.cases + index) / kinds.len();
        let outcome = (0..cases).try_for_each(|case| {
            run_case(kind, entry_points, &mut rng, &mut counts).map_err(|difference| {
                format!("seed {seed}, kind {kind}, case {case}: {difference}")
            })
        });
        report.add(&format!("random {kind}"), outcome);
    }
    counts.print(entry_points);
    report.add("every number is met", counts.are_complete(entry_points));
    report.add("numbers are met by the profile alone", counts.are_complete_by_profile());
}

/// Draws a case, compares what it is answered, and sees that this is what it was made for.
fn run_case(
    kind: Kind,
    entry_points: &[EntryPoint],
    rng: &mut Rng,
    counts: &mut Counts,
) -> Outcome {
    let case = kind.case(rng);
    for &entry_point in entry_points {
        let met = number(entry_point, &case, rng)?;
        *counts.all.entry((entry_point, met)).or_default() += 1;
        if is_by_profile(entry_point, &case, met, rng)? {
            *counts.by_profile.entry((entry_point, met)).or_default() += 1;
        }
        if kind.expected(entry_point).is_some_and(|made_for| made_for != met) {
            return Err(format!("comes to {met} and was not made for that: {case:?}"));
        }
    }
    Ok(())
}

/// The number that the case comes to, 0 where it is accepted or has a value or a text.
fn number(entry_point: EntryPoint, case: &Case, rng: &mut Rng) -> Result<u32, String> {
    let refusal = answers::compare(entry_point, case, rng)?;
    Ok(refusal.map_or(0, |refusal| refusal.number))
}

/// The number that was met is of a check that reads the profile, and under the full profile, which
/// is the program's in any case, the same sheets come to another.
fn is_by_profile(
    entry_point: EntryPoint,
    case: &Case,
    met: u32,
    rng: &mut Rng,
) -> Result<bool, String> {
    if !BY_PROFILE.contains(&met) || case.profile == Profile::FULL || entry_point == Program {
        return Ok(false);
    }
    Ok(met != number(entry_point, &case.clone().under(Profile::FULL), rng)?)
}

/// Each of these was met at least once.
fn are_met(expected: impl Iterator<Item = Met>, counts: &BTreeMap<Met, usize>) -> Outcome {
    let unmet: Vec<Met> = expected.filter(|met| !counts.contains_key(met)).collect();
    if unmet.is_empty() {
        Ok(())
    } else {
        Err(format!("not met: {unmet:?}"))
    }
}

impl Counts {
    fn print(&self, entry_points: &[EntryPoint]) {
        let list = |counts: &BTreeMap<Met, usize>, entry_point| {
            let met = counts.iter().filter(|((at, _), _)| *at == entry_point);
            let met = met.map(|((_, number), count)| format!("{number}: {count}"));
            met.collect::<Vec<_>>().join(", ")
        };
        let line = |entry_point| {
            let (all, tight) = (list(&self.all, entry_point), list(&self.by_profile, entry_point));
            format!("{all}; by the profile alone {tight}")
        };
        println!("the library's checks by number, 0 for accepted: {}", line(Check));
        println!("the same with a page: {}", line(PageCheck));
        println!("the library's evaluations by number, 0 for a value: {}", line(Evaluation));
        println!("the library's searches by number, 0 for a floor: {}", line(Search));
        for text in TEXTS {
            println!("its {text:?} by number, 0 for a text: {}", list(&self.all, text));
        }
        if entry_points.contains(&Program) {
            println!("the program by number, 0 for accepted: {}", list(&self.all, Program));
        } else {
            println!("the program was left out of the random cases; its numbers are not asked for");
        }
    }

    /// Each entry point met every number that it says, and accepted or gave values or texts.
    fn are_complete(&self, entry_points: &[EntryPoint]) -> Outcome {
        let numbers = |at| [0].into_iter().chain(refusals::said_by(at)).map(move |n| (at, n));
        are_met(entry_points.iter().flat_map(|&at| numbers(at)), &self.all)
    }

    /// What reads a profile met by it alone every number that goes by it.
    fn are_complete_by_profile(&self) -> Outcome {
        let read = |at| refusals::said_by(at).filter(|number| BY_PROFILE.contains(number));
        let readers = rule(27).entry_points;
        let numbers = readers.iter().flat_map(|&at| read(at).map(move |n| (at, n)));
        are_met(numbers, &self.by_profile)
    }
}
