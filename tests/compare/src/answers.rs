//! One case, answered by the oracle and by the library or the program.

use crate::program;
use harness::report::Outcome;
use oracle::{Accepted, Found, Integer, Paged, Refusal};
use refusals::EntryPoint;
use sheets::random::Rng;
use sheets::Case;
use std::fmt::{self, Display};

/// Bytes before and after a buffer that must keep their values.
const GUARD: usize = 16;

/// What both answered, or how they differ.
type Compared<T> = Result<Result<T, Refusal>, String>;

/// Compares what an entry point answers to a case, and gives the refusal where it is one.
pub fn compare(
    entry_point: EntryPoint,
    case: &Case,
    rng: &mut Rng,
) -> Result<Option<Refusal>, String> {
    Ok(match entry_point {
        EntryPoint::Check => check(case, rng)?.err(),
        EntryPoint::PageCheck => check_page(case, rng)?.verdict.err(),
        EntryPoint::Evaluation => evaluate(case, rng)?.err(),
        EntryPoint::Search => search(case, rng)?.err(),
        EntryPoint::Program => printed(case)?.err(),
        text => listing(text, case, rng)?.err(),
    })
}

/// A buffer of random bytes between others, which are not lent.
#[derive(Clone)]
struct Buffer {
    before: Vec<u8>,
    bytes: Vec<u8>,
}

impl Buffer {
    fn new(rng: &mut Rng, length: usize) -> Buffer {
        let before = rng.bytes(GUARD + length + GUARD);
        Buffer { bytes: before.clone(), before }
    }

    fn lent(&mut self) -> &mut [u8] {
        let end = self.bytes.len() - GUARD;
        &mut self.bytes[GUARD..end]
    }

    /// Compares every byte: the first ones are those that are to be written, and all others are as
    /// they were.
    fn compare(mut self, what: &str, written: &[u8], case: &Case) -> Outcome {
        self.before[GUARD..][..written.len()].copy_from_slice(written);
        same(what, &Hex(&self.before), &Hex(&self.bytes), case)
    }
}

/// Compares a check by the library: its answer and every byte of the output.
pub fn check(case: &Case, rng: &mut Rng) -> Compared<Accepted> {
    let Case { claim, proof, limits, profile, room, .. } = case;
    let verdict = oracle::check(claim, proof, limits, *profile, *room);
    let mut output = Buffer::new(rng, *room);
    let answer = burmelox::check(claim, proof, limits, *profile, output.lent());

    same("check", &code(verdict.as_ref(), rows), &answer, case)?;
    output.compare("output", exact(verdict.as_ref()), case)?;
    if let Ok(accepted) = &verdict {
        keeps_exact(case, &accepted.bytes)?;
    }
    Ok(verdict)
}

/// Compares a check with a page by the library: its answer, every byte of the output and of the
/// page. Where a page is written, a check without one comes to the same answer and output.
pub fn check_page(case: &Case, rng: &mut Rng) -> Result<Paged, String> {
    let Case { claim, proof, limits, profile, room, page, .. } = case;
    let paged = oracle::check_page(claim, proof, limits, *profile, *room, *page);
    let (mut output, mut page) = (Buffer::new(rng, *room), Buffer::new(rng, *page));
    let mut alone = output.clone();
    let answer = burmelox::check_page(claim, proof, limits, *profile, output.lent(), page.lent());

    let verdict = paged.verdict.as_ref();
    let written = paged.page.as_deref().unwrap_or_default();
    same("check with a page", &code(verdict, rows), &answer, case)?;
    page.compare("page", written.as_bytes(), case)?;
    output.compare("output beside the page", exact(verdict), case)?;
    if paged.page.is_some() {
        let without = burmelox::check(claim, proof, limits, *profile, alone.lent());
        same("check without a page", &answer, &without, case)?;
        alone.compare("output without a page", exact(verdict), case)?;
    }
    Ok(paged)
}

/// Compares a search by the library: its answer, the floor and the number of floors tried, which
/// are random before, and every byte of the output.
pub fn search(case: &Case, rng: &mut Rng) -> Compared<Found> {
    let Case { claim, proof, limits, profile, room, lo, hi, .. } = case;
    let (profile, lo, hi) = (*profile, *lo, *hi);
    let found = oracle::search(claim, proof, limits, profile, *room, lo, hi);
    let mut output = Buffer::new(rng, *room);
    let (mut floor, mut tried) = (rng.bits() as i64, rng.bits() as u32);
    let before = (floor, tried);
    let lent = output.lent();
    let answer =
        burmelox::search(claim, proof, limits, profile, lo, hi, lent, &mut floor, &mut tried);

    let verdict = found.as_ref().map(|found| &found.accepted);
    let stored = found.as_ref().map(|found| (found.accepted.floor.into(), found.tried));
    let expected = stored.unwrap_or(before);
    same("search", &code(verdict, rows), &answer, case)?;
    same("floor", &expected.0, &floor, case)?;
    same("number of floors tried", &expected.1, &tried, case)?;
    output.compare("output", exact(verdict), case)?;
    if let Ok(found) = &found {
        is_checked(case, &found.accepted)?;
    }
    Ok(found)
}

/// The library's check of the claim with the floor that was found writes the same exact proof.
fn is_checked(case: &Case, accepted: &Accepted) -> Outcome {
    let mut claim = case.claim.clone();
    claim[4..8].copy_from_slice(&accepted.floor.to_le_bytes());
    let mut output = vec![0; case.proof.len()];
    let answer = burmelox::check(&claim, &case.proof, &case.limits, case.profile, &mut output);
    same("check of the floor that was found", &rows(accepted), &answer, case)?;
    same("output of that check", &Hex(&accepted.bytes), &Hex(&output), case)
}

/// An exact proof, whose weights add up, is accepted again and written as it is.
fn keeps_exact(case: &Case, exact: &[u8]) -> Outcome {
    let mut output = vec![0; exact.len()];
    let answer = burmelox::check(&case.claim, exact, &case.limits, case.profile, &mut output);
    same("acceptance of the exact proof", &true, &(answer < 1 << 16), case)?;
    same("output for the exact proof", &Hex(exact), &Hex(&output), case)
}

/// Compares an evaluation by the library: its answer, and the value, which is random before.
fn evaluate(case: &Case, rng: &mut Rng) -> Compared<Integer> {
    let Case { claim, profile, offsets, .. } = case;
    let exact = oracle::evaluate(claim, *profile, offsets);
    let mut value = rng.bits() as i64;
    let before = Integer::from(value);
    let answer = burmelox::evaluate(claim, *profile, offsets, &mut value);

    same("evaluation", &code(exact.as_ref(), |_| 0), &answer, case)?;
    same("value", exact.as_ref().unwrap_or(&before), &Integer::from(value), case)?;
    Ok(exact)
}

/// Compares a text by the library: its answer and every byte of the buffer.
pub fn listing(entry_point: EntryPoint, case: &Case, rng: &mut Rng) -> Compared<String> {
    let room = case.text_room(&listed(entry_point, case, usize::MAX));
    let text = listed(entry_point, case, room);
    let mut buffer = Buffer::new(rng, room);
    let answer = list(entry_point, case, buffer.lent());

    same("length of the text", &code(text.as_ref(), |text| text.len() as u64), &answer, case)?;
    let written = text.as_deref().unwrap_or_default();
    buffer.compare("text", written.as_bytes(), case)?;
    Ok(text)
}

/// The oracle's text of a sheet or of the profile, for a buffer of `room` bytes.
fn listed(entry_point: EntryPoint, case: &Case, room: usize) -> Result<String, Refusal> {
    match entry_point {
        EntryPoint::ClaimText => oracle::claim_text(&case.claim, room),
        EntryPoint::ProofText => oracle::proof_text(&case.proof, room),
        EntryPoint::LimitsText => oracle::limits_text(&case.limits, room),
        EntryPoint::ProfileText => oracle::profile_text(case.profile, room),
        other => panic!("{other:?} writes no text"),
    }
}

/// Has the library write that text.
pub fn list(entry_point: EntryPoint, case: &Case, buffer: &mut [u8]) -> u64 {
    match entry_point {
        EntryPoint::ClaimText => burmelox::claim_text(&case.claim, buffer),
        EntryPoint::ProofText => burmelox::proof_text(&case.proof, buffer),
        EntryPoint::LimitsText => burmelox::limits_text(&case.limits, buffer),
        EntryPoint::ProfileText => burmelox::profile_text(case.profile, buffer),
        other => panic!("{other:?} writes no text"),
    }
}

/// Compares what the program prints. It is given neither the limits nor the profile.
fn printed(case: &Case) -> Compared<Accepted> {
    let input = case.input();
    let verdict = oracle::verdict(&input);
    same("printed text", &oracle::printed(&verdict), &program::print(&input)?, case)?;
    Ok(verdict)
}

fn same<T: PartialEq + Display>(what: &str, oracle: &T, other: &T, case: &Case) -> Outcome {
    if oracle == other {
        return Ok(());
    }
    Err(format!(
        "{what} differs\noracle   {oracle}\nanswered {other}\nclaim    {}\nproof    {}\n\
         limits   {}\nprofile  {:?}\noutput   of {} bytes\npage     of {} bytes\n\
         offsets  {:?}\nfloors   from {} to {}\nbuffers  with {} bytes to spare",
        Hex(&case.claim),
        Hex(&case.proof),
        Hex(&case.limits),
        case.profile,
        case.room,
        case.page,
        case.offsets,
        case.lo,
        case.hi,
        case.spare
    ))
}

/// A verdict as the library answers it, with the answer where nothing is refused.
fn code<T>(verdict: Result<&T, &Refusal>, answer: fn(&T) -> u64) -> u64 {
    verdict.map_or_else(|refusal| refusal.code(), answer)
}

fn rows(accepted: &Accepted) -> u64 {
    accepted.weights.len() as u64
}

/// What a verdict writes to the output: the exact proof where it is an acceptance, else nothing.
fn exact<'a>(verdict: Result<&'a Accepted, &Refusal>) -> &'a [u8] {
    verdict.map_or(&[], |accepted| &accepted.bytes)
}

/// Bytes that are shown in hex.
#[derive(PartialEq)]
struct Hex<'a>(&'a [u8]);

impl Display for Hex<'_> {
    fn fmt(&self, f: &mut fmt::Formatter) -> fmt::Result {
        self.0.iter().try_for_each(|byte| write!(f, "{byte:02x}"))
    }
}
