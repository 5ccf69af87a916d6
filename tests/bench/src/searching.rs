//! The search: by the library's method in Rust, and by a naive walk over the library's checks.
//!
//! A floor has a test for each term, one for the constant, one for each variable's limit and one
//! for each row. The method begins with the test that refused the floor before, and a floor is
//! found where none refuses it.

use crate::fields::{refuse_if, Refusal, Sheets, MOST};
use crate::judging::{fault, misses, places, write, Given, Method};
use crate::scanning::Scanning;
use sheets::Profile;

/// What a search is given.
pub struct Search {
    pub sheets: Given,
    pub lo: i64,
    pub hi: i64,
}

/// What it writes and stores.
#[derive(Clone, PartialEq)]
pub struct Found {
    pub output: Vec<u8>,
    pub floor: i64,
    pub tried: u32,
}

pub fn by_library(search: &Search, found: &mut Found) -> u64 {
    let Search { sheets: Given { claim, proof, limits }, lo, hi } = search;
    let Found { output, floor, tried } = found;
    burmelox::search(claim, proof, limits, Profile::FULL, *lo, *hi, output, floor, tried)
}

/// The library's method in Rust with i64.
pub fn by_same_method(search: &Search, found: &mut Found) -> u64 {
    find(search, found).unwrap_or_else(|refusal| refusal)
}

fn find(search: &Search, found: &mut Found) -> Result<u64, Refusal> {
    let Search { sheets: Given { claim, proof, limits }, lo, hi } = search;
    let mut sheets = Sheets::of(claim, proof, limits, found.output.len())?;
    refuse_if(22, lo > hi || *lo < -MOST || *hi > MOST || hi - lo > 4095)?;
    let mut last = 0;
    for floor in (*lo..=*hi).rev() {
        sheets.floor = floor;
        match refusing_test(&sheets, last) {
            Some(test) => last = test,
            None => {
                write(&sheets, &Scanning, proof, &mut found.output);
                (found.floor, found.tried) = (floor, (hi - floor + 1) as u32);
                return Ok(sheets.k as u64);
            }
        }
    }
    Err(refusals::code(23, 0))
}

/// The first test that refuses the floor, from the given one on and round to those before it.
fn refusing_test(sheets: &Sheets, first: usize) -> Option<usize> {
    let places = places(sheets);
    let refuses = |&test: &usize| match test.checked_sub(places) {
        None => misses(sheets, &Scanning, test),
        Some(row) => fault(Scanning.shifted(sheets, row)).is_some(),
    };
    (first..places + sheets.k).chain(0..first).find(refuses)
}

/// A check for each floor, which is written into the claim.
pub fn by_checks(search: &Search, found: &mut Found) -> u64 {
    let Given { claim, proof, limits } = &search.sheets;
    let mut claim = claim.clone();
    for floor in (search.lo..=search.hi).rev() {
        claim[4..8].copy_from_slice(&(floor as i32).to_le_bytes());
        let answer = burmelox::check(&claim, proof, limits, Profile::FULL, &mut found.output);
        if answer < 1 << 16 {
            (found.floor, found.tried) = (floor, (search.hi - floor + 1) as u32);
            return answer;
        }
    }
    refusals::code(23, 0)
}
