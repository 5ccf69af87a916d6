//! Searches for the highest floor that the rows carry, with what they find.

use crate::limited::{line, minus_square};
use crate::masked::b_claim;
use crate::worked::{motzkin_claim, motzkin_proof, square_claim, square_proof};
use crate::{papers, Case, Claim, Limit, Limits, Proof, MOST};

/// A search and what it comes to: a floor, or the number of a refusal at index 0.
pub struct Search {
    pub name: &'static str,
    pub case: Case,
    pub outcome: Result<Found, u32>,
}

/// A found floor, the number of floors tried, and the floor's exact proof.
#[derive(Clone, Debug, PartialEq, Eq)]
pub struct Found {
    pub floor: i64,
    pub tried: u32,
    pub exact: Vec<u8>,
}

/// The greatest floor.
const TOP: i64 = MOST as i64;

/// What a search comes to, with the shifted weights for the exact proof.
type Outcome<'a> = Result<(i64, u32, &'a [[i32; 3]]), u32>;

/// A search among the floors from `lo` to `hi`.
fn search(name: &'static str, case: &Case, lo: i64, hi: i64, outcome: Outcome) -> Search {
    let case = Case { lo, hi, ..case.clone() };
    let outcome = outcome.map(|(floor, tried, weights)| {
        let points = &case.proof[..case.proof.len() - 12 * weights.len()];
        let weights = weights.iter().flatten().flat_map(|weight| weight.to_le_bytes());
        Found { floor, tried, exact: points.iter().copied().chain(weights).collect() }
    });
    Search { name, case, outcome }
}

/// Every named search.
pub fn searches() -> Vec<Search> {
    [worked(), masked(), limited(), bounds(), orders(), gaps()].into_iter().flatten().collect()
}

/// Square with a floor of its own.
fn square(floor: i32) -> Case {
    Case::new(&square_claim(floor, -2), &square_proof())
}

/// Worked sheets. C's own floor is −1, which is accepted too, with other bytes.
fn worked() -> Vec<Search> {
    let (a, c) = (square(0), square(-1));
    let e = Case::new(&Claim::new::<1>(0, &[]), &Proof::new::<1>(1, &[]));
    let g = Case::new(&motzkin_claim(), &motzkin_proof(-2));
    let as_proposed = [[1, 1, -2]];
    vec![
        search("A", &a, -3, 3, Ok((0, 4, &as_proposed))),
        search("A at its floor", &a, 0, 0, Ok((0, 1, &as_proposed))),
        search("A under its floor", &a, -7, -1, Ok((-1, 1, &[[2, 1, -2]]))),
        search("A above its floor", &a, 1, 3, Err(23)),
        search("C", &c, -3, 3, Ok((0, 4, &as_proposed))),
        search("D", &square(1), -3, 3, Ok((0, 4, &as_proposed))),
        search("E", &e, -5, 5, Ok((0, 6, &[]))),
        search("F", &e, 1, 5, Err(23)),
        search("G", &g, -10, 10, Ok((0, 11, &[[1, 1, -2], [2, 2, -4], [1, 1, -2]]))),
    ]
}

/// B with masks. Its pair carries the floor 0 either way, by another r. Lone rows carry the floor 1
/// where x is never negative, and none where it may be.
fn masked() -> Vec<Search> {
    let pair = |mask| Case::new(&b_claim(mask), &square_proof());
    let lone_rows = Proof::new(1, &[0, 1, 2].map(|point| ([point], [point], [0, 0, 0])));
    let lone = |mask| Case::new(&b_claim(mask), &lone_rows);
    let lone_weights = [[0, 0, 0], [2, 0, 0], [1, 0, 0]];
    vec![
        search("B", &pair(0), -3, 3, Ok((0, 4, &[[1, 1, -2]]))),
        search("B masked", &pair(1), -3, 3, Ok((0, 4, &[[1, 1, 2]]))),
        search("B masked past n", &pair(2), -3, 3, Err(2)),
        search("B in lone rows", &lone(0), -3, 3, Err(23)),
        search("B masked in lone rows", &lone(1), -3, 3, Ok((1, 3, &lone_weights))),
    ]
}

/// Limited claims: −x² without rows carries the one floor at which the limit takes all of the
/// constant, and x one that it does not carry unlimited.
fn limited() -> Vec<Search> {
    let (square, line) = (minus_square().case(), line().case());
    let unlimited = line.clone().limited(&Limits::none(1));
    vec![
        search("-x² limited", &square, -20, 0, Ok((-9, 10, &[]))),
        search("-x² limited, under its floor", &square, -20, -10, Err(23)),
        search("x limited", &line, -20, 20, Ok((-5, 26, &[[25, 1, -10]]))),
        search("x limited, under its floor", &line, -7, -6, Ok((-6, 1, &[[35, 1, -10]]))),
        search("x unlimited", &unlimited, -20, 20, Err(23)),
    ]
}

/// Floors at the ends of what they may be and past them, and as many floors as there may be.
fn bounds() -> Vec<Search> {
    let a = square(0);
    let as_proposed = [[1, 1, -2]];
    vec![
        search("last of 4,096 floors", &a, 0, 4095, Ok((0, 4096, &as_proposed))),
        search("first of 4,096 floors", &a, -4095, 0, Ok((0, 1, &as_proposed))),
        search("none of 4,096 floors", &a, 1, 4096, Err(23)),
        search("4,097 floors", &a, 0, 4096, Err(22)),
        search("4,097 floors from the first on", &a, -4096, 0, Err(22)),
        search("lo over hi", &a, 1, 0, Err(22)),
        search("greatest floor", &a, TOP, TOP, Err(23)),
        search("hi past the greatest", &a, TOP, TOP + 1, Err(22)),
        search("least floor but one", &a, -TOP, -TOP + 1, Ok((1 - TOP, 1, &[[MOST, 1, -2]]))),
        search("lo past the least", &a, -TOP - 1, -TOP, Err(22)),
        search("lo past the least, few floors", &a, -TOP - 1, -TOP - 1, Err(22)),
        search("widest of all", &a, i64::MIN, i64::MAX, Err(22)),
        search("widest the wrong way round", &a, i64::MAX, i64::MIN, Err(22)),
        search("least numbers", &a, i64::MIN, i64::MIN + 3, Err(22)),
        search("greatest numbers", &a, i64::MAX - 3, i64::MAX, Err(22)),
        search("zeros in the low 32 bits", &a, 1 << 32, 1 << 32, Err(22)),
    ]
}

/// What is checked before 22: the own floor is unused and has to be valid all the same.
fn orders() -> Vec<Search> {
    let short = Case { room: 21, ..square(0) };
    let no_limits = Case { limits: vec![], ..short.clone() };
    let third_power = short.clone().limited(&Limits::new(&[Limit::new(3, 1, 1)]));
    let far = square(MOST + 1);
    let heavy = Case::new(&square_claim(0, -2), &Proof::new(1, &[([0], [2], [1, 1, MOST + 1])]));
    vec![
        search("output too short", &short, -3, 3, Err(11)),
        search("output too short, lo over hi", &short, 3, -3, Err(11)),
        search("no limits sheet, output too short, lo over hi", &no_limits, 3, -3, Err(24)),
        search("third power, output too short, lo over hi", &third_power, 3, -3, Err(25)),
        search("own floor beyond", &far, -3, 3, Err(4)),
        search("weight beyond, lo over hi", &heavy, 3, -3, Err(15)),
    ]
}

/// Floors that are refused under accepted ones: without a slot at the constant its own coefficient
/// alone is accepted (16), and 2^30 with one lone row is too much for that row under 0 (17). Above
/// accepted ones 17 refuses too: with the greatest scale Square's p falls past −2^30 from 1,026 on.
fn gaps() -> Vec<Search> {
    let toy = papers::toy_circuits();
    let toy = Case::new(&toy.claim, &toy.proof);
    let toy_weights = [[1, 1, -2], [1, 1, -1], [1, 0, 0]];
    let lone = Proof::new(1, &[([0], [0], [0, 0, 0])]);
    let lone = Case::new(&Claim::new(0, &[([0], MOST)]), &lone);
    let scaled = Proof::new(1 << 20, &[([0], [2], [0, 0, 0])]);
    let scaled = Case::new(&square_claim(0, -2), &scaled);
    let scaled_weights = [[1 << 20, 1 << 20, -2 << 20]];
    vec![
        search("around the lone floor", &toy, -5, 5, Ok((1, 5, &toy_weights))),
        search("above the lone floor", &toy, 2, 5, Err(23)),
        search("under the lone floor", &toy, -5, 0, Err(23)),
        search("a row under its weight limit", &lone, -4, 4, Ok((4, 1, &[[MOST - 4, 0, 0]]))),
        search("a row at its weight limit", &lone, -4, 0, Ok((0, 1, &[[MOST, 0, 0]]))),
        search("a row past its weight limit", &lone, -4, -1, Err(23)),
        search("17, then 18, 19 and a floor", &scaled, 0, 2000, Ok((0, 2001, &scaled_weights))),
    ]
}
