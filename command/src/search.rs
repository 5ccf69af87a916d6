//! `burmelox search`: the highest floor that a proof carries.

use crate::advice::advice;
use crate::arguments::{Arguments, Opt, Subcommand, EXACT, LIMITS, PROFILE};
use crate::balance::Balance;
use crate::fault::Blamed;
use crate::files::Staged;
use crate::held::Sheets;
use crate::library;
use crate::profiles;
use crate::report::Report;
use crate::rules::Refusal;
use crate::sheet::{Claim, Limits, Proof};
use crate::status::{trouble, Ending, Status, Trouble};
use crate::telling::{tell_refusal, tell_sheets};
use burmelox::Profile;

pub const SUBCOMMAND: Subcommand = Subcommand {
    name: "search",
    operands: "CLAIM [PROOF]",
    count: 1..=2,
    summary: "Searches for the highest floor that a proof carries.",
    about: "\
Tries every floor from HI down to LO; the claim's own is not used. Prints the
claim with the floor that was found, and how many were tried.
",
    options: &[
        Opt::new("--from", "LO", "the lowest floor"),
        Opt::new("--to", "HI", "the highest floor"),
        LIMITS,
        PROFILE,
        EXACT,
        Opt::new("--claim", "FILE", "write the claim with the floor that was found, in bytes"),
    ],
    run,
};

/// One call of the library tries at most so many floors.
const MOST_FLOORS: i64 = 4096;

/// A floor that was found, its exact proof, and how many floors were tried.
struct Found {
    floor: i64,
    tried: u64,
    rows: u64,
    exact: Vec<u8>,
}

fn run(arguments: &Arguments) -> Ending {
    let given = profiles::given(arguments)?;
    let profile = given.unwrap_or(Profile::FULL);
    let (lo, hi) = (end(arguments, "--from")?, end(arguments, "--to")?);
    let sheets = Sheets::of(arguments)?;

    let mut report = Report::new(arguments);
    let (status, files) = match highest(&sheets, profile, lo, hi) {
        Ok(found) => {
            let claim = with_floor(&sheets.claim.bytes, found.floor);
            tell_sheets(&mut report, &claim, &sheets, given);
            tell_found(&mut report, &found);
            (Status::Done, staged(arguments, &found, &claim)?)
        }
        Err(refusal) => {
            tell_sheets(&mut report, &sheets.claim.bytes, &sheets, given);
            let range = Some((lo, hi));
            let blamed = Blamed { range, ..Blamed::sheets(&sheets, profile) };
            tell_refusal(&mut report, refusal, blamed);
            tell_lowest(&mut report, &sheets, profile, lo, refusal);
            (Status::Refused, Vec::new())
        }
    };
    report.print(files)?;
    Ok(status)
}

/// An end of the range.
fn end(arguments: &Arguments, name: &str) -> Result<i64, Trouble> {
    match arguments.number(name)? {
        Some(floor) => Ok(floor),
        None => trouble(format!("search: {name} is missing; try `burmelox search --help`")),
    }
}

/// The highest floor, in pieces from the top where there are too many for one call. Before the
/// pieces the lowest floor is tried, which shows whether range and sheets are right.
fn highest(sheets: &Sheets, profile: Profile, lo: i64, hi: i64) -> Result<Found, Refusal> {
    if hi.saturating_sub(lo) < MOST_FLOORS {
        return piece(sheets, profile, lo, hi);
    }
    piece(sheets, profile, lo, lo).map(drop).or_else(go_on)?;
    let (mut high, mut tried) = (hi, 0);
    loop {
        let low = lo.max(high - MOST_FLOORS + 1);
        match piece(sheets, profile, low, high) {
            Err(refusal) if low > lo => go_on(refusal)?,
            Err(refusal) => return Err(refusal),
            Ok(found) => return Ok(Found { tried: tried + found.tried, ..found }),
        }
        tried += (high - low + 1) as u64;
        high = low - 1;
    }
}

/// After 23 there may be a floor elsewhere.
fn go_on(refusal: Refusal) -> Result<(), Refusal> {
    if refusal.number == 23 {
        Ok(())
    } else {
        Err(refusal)
    }
}

/// One call of the library.
fn piece(sheets: &Sheets, profile: Profile, lo: i64, hi: i64) -> Result<Found, Refusal> {
    let (claim, proof) = (&sheets.claim.bytes, &sheets.proof.bytes);
    let (mut exact, mut floor, mut tried) = (vec![0; proof.len()], 0, 0);
    let answer = burmelox::search(
        claim,
        proof,
        &sheets.limits,
        profile,
        lo,
        hi,
        &mut exact,
        &mut floor,
        &mut tried,
    );
    match Refusal::of(answer) {
        Some(refusal) => Err(refusal),
        None => Ok(Found { floor, tried: tried.into(), rows: answer, exact }),
    }
}

/// The claim with another floor, which the library found.
fn with_floor(claim: &[u8], floor: i64) -> Vec<u8> {
    let mut claim = claim.to_vec();
    claim[4..8].copy_from_slice(&(floor as i32).to_le_bytes());
    claim
}

fn tell_found(report: &mut Report, found: &Found) {
    let Found { floor, tried, rows, .. } = found;
    report.line(&format!("found floor {floor} tried {tried} rows {rows}"));
    report.fields().text("verdict", "found");
    report.fields().number("floor", floor);
    report.fields().number("tried", tried);
    report.fields().number("rows", rows);
}

/// After 23, what a check says of the lowest floor, which leaves most room.
fn tell_lowest(report: &mut Report, sheets: &Sheets, profile: Profile, lo: i64, refusal: Refusal) {
    if refusal.number == 23 {
        let claim = with_floor(&sheets.claim.bytes, lo);
        let verdict = library::check(&claim, &sheets.proof.bytes, &sheets.limits, profile);
        let why = verdict.exact.err().and_then(|refusal| no_floor(&claim, sheets, refusal));
        let words =
            format!("with floor {lo} a check says: {}{}", verdict.line, why.unwrap_or_default());
        report.note("advice", "advice", &words);
    }
}

/// What is said of 18 or 19 at a row without a slot at the constant, which no floor helps.
fn no_floor(claim: &[u8], sheets: &Sheets, refusal: Refusal) -> Option<String> {
    let (claim, proof) = (Claim::read(claim)?, Proof::read(&sheets.proof.bytes)?);
    let row = refusal.index;
    let at_constant = proof.rows.get(row)?.slots().contains(&claim.origin());
    if at_constant || ![18, 19].contains(&refusal.number) {
        return None;
    }
    let limits = Limits::read(&sheets.limits)?;
    let advised = advice(&Balance::new(&claim, &proof, &limits), Profile::FULL, refusal)?;
    Some(format!("; row {row} has no slot at the constant, so no floor helps: {advised}"))
}

fn staged(arguments: &Arguments, found: &Found, claim: &[u8]) -> Result<Vec<Staged>, Trouble> {
    let contents = [("-o", &found.exact[..]), ("--claim", claim)];
    let named =
        contents.into_iter().filter_map(|(name, bytes)| Some((arguments.value(name)?, bytes)));
    named.map(|(name, bytes)| Staged::new(name, bytes)).collect()
}
