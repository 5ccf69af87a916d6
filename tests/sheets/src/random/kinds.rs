//! The kinds of random cases.

use super::breaks::{self, Break};
use super::limits::right;
use super::offsets::{largest_terms, offsets, over_largest_term};
use super::profiles::{self, larger, needed};
use super::ranges::{around, down_to, outside, wrong, Floors};
use super::rows::JUDGED;
use super::shape::mask;
use super::{Plan, Rng, Shape};
use crate::{Case, Claim, Limit, Limits, Point, Profile, Proof, MOST_TERMS, PAGE_LENGTH};
use refusals::EntryPoint::{self, Check, Evaluation, PageCheck, Program, Search};
use refusals::TEXTS;
use std::fmt;

/// What breaks one of these may be right, or broken otherwise, where a sheet has neither a claim
/// beside it nor the case's profile.
const NOT_ALONE: [u32; 5] = [6, 9, 12, 15, 24];

/// A kind of random cases.
#[derive(Clone, Copy, Debug, PartialEq, Eq)]
pub enum Kind {
    /// Accepted, mostly after a shift.
    Accepted,
    /// Accepted, at the limits of weights, scale, exponents, rows, terms and variables.
    Extreme,
    /// Accepted, with a search down from floors that the rows begin to carry one after another.
    Found,
    /// Terms of exactly ±2^56.
    Largest,
    /// Refused by the number, in each of the library's entry points that say it.
    Refused(u32),
    /// Refused by the number for a profile that is too small, and accepted under the full one.
    Tight(u32),
    /// Cut, lengthened, with bits or bytes changed.
    Damaged,
    /// Bytes of any value, behind headers that are often right.
    Noise,
}

impl Kind {
    /// Every kind.
    pub fn all() -> Vec<Kind> {
        use Kind::*;
        let refused = refusals::RULES.iter().map(|rule| Refused(rule.number));
        let tight = refusals::BY_PROFILE.map(Tight);
        let others = [Accepted, Extreme, Found, Largest, Damaged, Noise];
        others.into_iter().chain(refused).chain(tight).collect()
    }

    /// What a case must come to by the way it was made, where that is known: the number that the
    /// entry point ends with, 0 where it accepts or gives a value. The program may part its input
    /// elsewhere.
    pub fn expected(self, entry_point: EntryPoint) -> Option<u32> {
        match (self, entry_point) {
            (_, Program) => None,
            (_, text) if TEXTS.contains(&text) => self.expected_text(text),
            (Kind::Accepted | Kind::Extreme | Kind::Found, Check | PageCheck) => Some(0),
            (Kind::Found, Search) => Some(0),
            (Kind::Largest, Evaluation) => Some(0),
            (Kind::Refused(number) | Kind::Tight(number), _) => {
                refusals::rule(number).is_said_by(entry_point).then_some(number)
            }
            _ => None,
        }
    }

    /// The same of a text.
    fn expected_text(self, text: EntryPoint) -> Option<u32> {
        match self {
            Kind::Accepted | Kind::Extreme | Kind::Found | Kind::Largest | Kind::Tight(_) => {
                Some(0)
            }
            Kind::Refused(number) if !NOT_ALONE.contains(&number) => {
                refusals::rule(number).is_said_by(text).then_some(number)
            }
            _ => None,
        }
    }

    /// A random case of the kind.
    pub fn case(self, rng: &mut Rng) -> Case {
        match self {
            Kind::Accepted => planned(rng, Shape::random, &[]),
            Kind::Extreme => planned(rng, Shape::extreme, &[]),
            Kind::Found => found(rng),
            Kind::Largest => evaluated(rng, largest_terms),
            Kind::Refused(16) => without_slot(rng),
            Kind::Refused(21) => evaluated(rng, over_largest_term),
            Kind::Refused(23) => without_floor(rng),
            Kind::Refused(number) if JUDGED.contains(&number) => misjudged(rng, number),
            Kind::Refused(number) => broken(rng, number),
            Kind::Tight(number) => tight(rng, number),
            Kind::Damaged => damaged(rng),
            Kind::Noise => noise(rng),
        }
    }
}

impl fmt::Display for Kind {
    fn fmt(&self, f: &mut fmt::Formatter) -> fmt::Result {
        match self {
            Kind::Accepted => write!(f, "accepted"),
            Kind::Extreme => write!(f, "accepted at the limits"),
            Kind::Found => write!(f, "found floors"),
            Kind::Largest => write!(f, "terms of 2^56"),
            Kind::Refused(number) => write!(f, "refused {number}"),
            Kind::Tight(number) => write!(f, "refused {number} by the profile"),
            Kind::Damaged => write!(f, "damaged"),
            Kind::Noise => write!(f, "noise"),
        }
    }
}

/// A planned case, with a search around the carried floors.
fn planned(rng: &mut Rng, shape: fn(&mut Rng) -> Shape, faults: &[u32]) -> Case {
    let plan = Plan::random(rng, shape, faults);
    let profile = larger(rng, plan.needed());
    planned_under(rng, &plan, profile)
}

/// The plan's case under a profile, with a search around the floors that it leaves carried.
fn planned_under(rng: &mut Rng, plan: &Plan, profile: Profile) -> Case {
    let floors = around(rng, &plan.carried(profile.weight), plan.proof.rows.len());
    case_of(rng, plan, profile, floors)
}

/// The plan's case.
fn case_of(rng: &mut Rng, plan: &Plan, profile: Profile, floors: Floors) -> Case {
    sheets_case(rng, &plan.claim, &plan.proof, &plan.limits, floors).under(profile)
}

/// A case of a plan that holds and of a profile that is too small for it by the number alone.
fn tight(rng: &mut Rng, number: u32) -> Case {
    loop {
        let plan = Plan::random(rng, any_shape, &[]);
        if let Some(profile) = plan.tight(rng, number) {
            return planned_under(rng, &plan, profile);
        }
    }
}

/// A case under the full profile with an output as long as the proof or longer, and buffers as long
/// as their texts or longer.
fn sheets_case(
    rng: &mut Rng,
    claim: &Claim,
    proof: &Proof,
    limits: &Limits,
    floors: Floors,
) -> Case {
    let case = Case::new(claim, proof).limited(limits);
    let mut longer = || if rng.once_in(2) { 0 } else { rng.below(40) };
    let (room, spare) = (case.room + longer(), longer() as isize);
    let offsets = offsets(rng, claim.n.into());
    let (lo, hi) = floors.into_inner();
    Case { room, offsets, lo, hi, spare, ..case }
}

/// A case for an evaluation, with a proof of no rows.
fn evaluated(rng: &mut Rng, terms: fn(&mut Rng) -> (Claim, Vec<i32>)) -> Case {
    let (claim, offsets) = terms(rng);
    let proof = Proof { n: claim.n, scale: 1, rows: vec![] };
    let limits = right(rng, claim.n.into());
    let profile = larger(rng, needed(&claim, &proof));
    let floors = around(rng, &(0..=0), 0);
    Case { offsets, ..sheets_case(rng, &claim, &proof, &limits, floors).under(profile) }
}

/// Shapes at the limits once in eight.
fn any_shape(rng: &mut Rng) -> Shape {
    if rng.once_in(8) {
        Shape::extreme(rng)
    } else {
        Shape::random(rng)
    }
}

/// A case with a row that the number refuses, and often others that it or later checks refuse.
fn misjudged(rng: &mut Rng, number: u32) -> Case {
    let mut faults = some_faults(rng, number);
    faults.push(number);
    planned(rng, any_shape, &faults)
}

/// Numbers of faulty rows, none of them checked before the given number, each one time in four.
fn some_faults(rng: &mut Rng, number: u32) -> Vec<u32> {
    let faults = refusals::from(number).filter(|other| JUDGED.contains(other));
    faults.filter(|_| rng.once_in(4)).collect()
}

/// A case with a target that no row holds; often with a faulty row as well.
fn without_slot(rng: &mut Rng) -> Case {
    loop {
        let faults = some_faults(rng, 16);
        let mut plan = Plan::random(rng, Shape::random, &faults);
        let carried = plan.carried(Profile::FULL.weight);
        let floors = around(rng, &carried, plan.proof.rows.len());
        let part: fn(&mut Rng, &mut Plan) -> bool =
            rng.pick(&[move_floor as _, add_term as _, move_multiplier as _]);
        if part(rng, &mut plan) {
            let profile = larger(rng, plan.needed());
            return case_of(rng, &plan, profile, floors);
        }
    }
}

/// Moves the floor where no row holds the constant.
fn move_floor(_: &mut Rng, plan: &mut Plan) -> bool {
    let origin = vec![0; plan.claim.n.into()];
    let floor = &mut plan.claim.floor;
    *floor += if *floor > 0 { -1 } else { 1 };
    !plan.holds(&origin)
}

/// Puts a term at a point that no row holds and that the limits leave alone.
fn add_term(rng: &mut Rng, plan: &mut Plan) -> bool {
    let point: Point = (0..plan.claim.n).map(|_| rng.below(121) as u8).collect();
    let is_constant = point.iter().all(|&exponent| exponent == 0);
    let is_free = !is_constant && !plan.holds(&point) && !plan.limits.added().contains_key(&point);
    let terms = &mut plan.claim.terms;
    terms.push((point, rng.pick(&[1, -1, 1 << 30])));
    terms.sort();
    is_free && terms.len() <= MOST_TERMS
}

/// Moves a multiplier, or limits a variable, where no row holds the pure power.
fn move_multiplier(rng: &mut Rng, plan: &mut Plan) -> bool {
    let variable = rng.below(plan.claim.n.into());
    let Limit { power, limit, multiplier } = plan.limits.entries[variable];
    let power = if power > 0 { power } else { rng.pick(&[2, 4]) };
    let moved = if multiplier == 0 || multiplier < 65_536 && rng.once_in(2) {
        multiplier + 1
    } else {
        multiplier - 1
    };
    plan.limits.entries[variable] = Limit::new(power, limit.max(1), moved);
    !plan.holds(&plan.limits.pure_power(variable, power))
}

/// A case with a search that finds the highest of the carried floors.
fn found(rng: &mut Rng) -> Case {
    let plan = Plan::random(rng, Shape::low, &[]);
    let profile = larger(rng, plan.needed());
    let floors = down_to(rng, &plan.carried(profile.weight));
    case_of(rng, &plan, profile, floors)
}

/// A case with a search among floors none of which is accepted, often with faulty rows as well.
fn without_floor(rng: &mut Rng) -> Case {
    loop {
        let faults = some_faults(rng, 16);
        let plan = Plan::random(rng, any_shape, &faults);
        let profile = larger(rng, plan.needed());
        let carried = plan.carried(profile.weight);
        if let Some(floors) = outside(rng, &carried, plan.proof.rows.len()) {
            return case_of(rng, &plan, profile, floors);
        }
    }
}

/// A case broken by the number, and often for a later check as well.
fn broken(rng: &mut Rng, number: u32) -> Case {
    let mut case = with_terms_and_rows(rng, number);
    let put = breaks::of(number).expect("the number has a fault of single sheets");
    let later: Vec<Break> = refusals::from(number).skip(1).filter_map(breaks::of).collect();
    if !later.is_empty() && rng.once_in(2) {
        rng.pick(&later)(rng, &mut case);
    }
    put(rng, &mut case);
    case
}

/// A case that has something for every number to break, often with faulty rows.
fn with_terms_and_rows(rng: &mut Rng, number: u32) -> Case {
    loop {
        let faults = some_faults(rng, number);
        let case = planned(rng, any_shape, &faults);
        let rows = case.proof.len() - 8;
        if case.claim[1] >= 2 && rows > 0 {
            return case;
        }
    }
}

/// A case of another kind, with one to three damages, an output of any length, and sometimes other
/// limits, another profile, one out of range, a wrong range, a page of wrong length or buffers that
/// are too short.
fn damaged(rng: &mut Rng) -> Case {
    let kind = rng.pick(&[Kind::Accepted, Kind::Accepted, Kind::Extreme, Kind::Largest]);
    let mut case = kind.case(rng);
    if rng.once_in(8) {
        case.limits = right(rng, case.claim[0].into()).bytes();
    }
    if rng.once_in(4) {
        case.profile = profiles::right(rng);
    }
    for _ in 0..1 + rng.below(3) {
        let sheet = match rng.below(8) {
            0 => &mut case.limits,
            1..=4 => &mut case.proof,
            _ => &mut case.claim,
        };
        damage(rng, sheet);
    }
    if rng.once_in(8) {
        let count = rng.below(10);
        case.offsets = offsets(rng, count);
    }
    if rng.once_in(8) {
        (case.lo, case.hi) = wrong(rng);
    }
    if rng.once_in(8) {
        case.page = breaks::wrong_page_length(rng);
    }
    if rng.once_in(8) {
        case.profile = profiles::wrong(rng, case.profile);
    }
    if rng.once_in(8) {
        case.spare = breaks::too_short(rng);
    }
    case.room = if rng.once_in(8) { rng.below(9000) } else { case.proof.len() };
    case
}

fn damage(rng: &mut Rng, sheet: &mut Vec<u8>) {
    if sheet.is_empty() {
        return sheet.push(rng.byte());
    }
    let place = rng.below(sheet.len());
    let more = 1 + rng.pick(&[0, 3, 50, 9000]);
    match rng.below(8) {
        0 => sheet.truncate(place),
        1 => sheet.extend(rng.bytes(more)),
        2 => drop(sheet.remove(place)),
        3 => sheet.insert(place, rng.byte()),
        4 => sheet[place] = rng.byte(),
        _ => sheet[place] ^= 1 << rng.below(8),
    }
}

fn noise(rng: &mut Rng) -> Case {
    let n = 1 + rng.below(3);
    let (t, k) = (rng.below(3), rng.below(3));
    let mut claim = vec![n as u8, t as u8, mask(rng, n), 0, 0, 0, 0, 0];
    let mut proof = vec![n as u8, 0, k as u8, 0, 1, 0, 0, 0];
    let mut limits = vec![n as u8];
    let most = rng.pick(&[1, 2, 4, 255]);
    let mut body = |length: usize| -> Vec<u8> {
        (0..length).map(|_| if rng.once_in(3) { rng.below(most) as u8 } else { 0 }).collect()
    };
    claim.extend(body(t * (n + 4)));
    proof.extend(body(k * (2 * n + 12)));
    limits.extend(body(7 * n));
    for sheet in [&mut claim, &mut proof, &mut limits] {
        if rng.once_in(8) {
            let length = rng.below(30);
            *sheet = rng.bytes(length);
        }
    }
    let offsets = offsets(rng, n);
    let (lo, hi) = around(rng, &(0..=0), k).into_inner();
    let profile = profiles::right(rng);
    let (room, page, spare) = (proof.len(), PAGE_LENGTH, rng.below(3) as isize - 1);
    Case { claim, proof, limits, profile, room, page, offsets, lo, hi, spare }
}
