//! Faults put into well-formed sheets, one for each number that the bytes of a single sheet, the
//! length of output, page or text buffer, the profile, the ends of a range or the count of offsets
//! can break.

use super::{limits, profiles, ranges, Rng};
use crate::{Case, Profile, MOST, PAGE_LENGTH};
use std::ops::{Range, RangeInclusive};

/// Breaks a rule in sheets that have at least two terms and a row, under a profile in range, which
/// is what some rules go by. What later checks look at need not be in order; what earlier ones look
/// at stays as it is.
pub type Break = fn(&mut Rng, &mut Case);

/// The faults by number.
const BREAKS: &[(u32, Break)] = &[
    (1, cut_claim),
    (2, |rng, case| spoil_claim_header(rng, &mut case.claim)),
    (3, spoil_claim_length),
    (4, |rng, case| put_word(&mut case.claim, 4, beyond(rng, MOST))),
    (5, |rng, case| spoil_coefficient(rng, &mut case.claim)),
    (6, |rng, Case { claim, profile, .. }| {
        spoil_exponent(rng, ClaimPlaces::of(claim).points, claim, profile)
    }),
    (7, |rng, case| spoil_order(rng, &mut case.claim)),
    (8, |rng, case| case.proof.truncate(rng.below(8))),
    (9, |rng, case| spoil_proof_header(rng, &mut case.proof, &case.profile)),
    (10, |rng, case| spoil_proof_length(rng, &mut case.proof, &case.profile)),
    (11, |rng, case| case.room = rng.below(case.proof.len())),
    (12, |rng, Case { proof, profile, .. }| {
        spoil_exponent(rng, ProofPlaces::of(proof).ends, proof, profile)
    }),
    (13, |rng, case| spoil_midpoint(rng, &mut case.proof)),
    (14, |rng, case| spoil_lone_row(rng, &mut case.proof)),
    (15, |rng, case| spoil_weight(rng, &mut case.proof, &case.profile)),
    (24, |rng, case| spoil_limits_length(rng, &mut case.limits)),
    (25, |rng, case| spoil_limits(rng, &mut case.limits)),
    (20, |rng, case| spoil_count(rng, &mut case.offsets)),
    (22, |rng, case| (case.lo, case.hi) = ranges::wrong(rng)),
    (26, |rng, case| case.page = wrong_page_length(rng)),
    (27, |rng, case| case.profile = profiles::wrong(rng, case.profile)),
    (30, |rng, case| case.spare = too_short(rng)),
];

/// The fault of a number, where it has one of this sort.
pub fn of(number: u32) -> Option<Break> {
    BREAKS.iter().find(|(other, _)| *other == number).map(|(_, put)| *put)
}

/// Where a claim's parts begin.
struct ClaimPlaces {
    n: usize,
    t: usize,
    points: Range<usize>,
    coefficients: usize,
}

impl ClaimPlaces {
    fn of(claim: &[u8]) -> ClaimPlaces {
        let (n, t) = (usize::from(claim[0]), usize::from(claim[1]));
        ClaimPlaces { n, t, points: 8..8 + n * t, coefficients: 8 + n * t }
    }
}

/// Where a proof's parts begin.
struct ProofPlaces {
    n: usize,
    k: usize,
    ends: Range<usize>,
    weights: usize,
}

impl ProofPlaces {
    fn of(proof: &[u8]) -> ProofPlaces {
        let n = usize::from(proof[0]);
        let k = usize::from(u16::from_le_bytes([proof[2], proof[3]]));
        ProofPlaces { n, k, ends: 8..8 + 2 * n * k, weights: 8 + 2 * n * k }
    }

    /// The points v and w of a row.
    fn row<'a>(&self, proof: &'a mut [u8], row: usize) -> (&'a mut [u8], &'a mut [u8]) {
        let start = self.ends.start + 2 * self.n * row;
        proof[start..start + 2 * self.n].split_at_mut(self.n)
    }
}

fn put_word(bytes: &mut [u8], place: usize, word: i32) {
    bytes[place..place + 4].copy_from_slice(&word.to_le_bytes());
}

/// A number beyond ± the greatest, just as often as far.
fn beyond(rng: &mut Rng, most: i32) -> i32 {
    let least = most + 1;
    let any = rng.within(i64::from(least)..=i32::MAX.into()) as i32;
    rng.pick(&[least, -least, any, -any, i32::MAX, i32::MIN])
}

/// A number past the limit: the first of the range as often as any other.
fn past(rng: &mut Rng, range: RangeInclusive<u16>) -> u16 {
    let any = rng.within((*range.start()).into()..=(*range.end()).into()) as u16;
    rng.pick(&[*range.start(), any])
}

fn past_byte(rng: &mut Rng, first: u8) -> u8 {
    past(rng, first.into()..=255) as u8
}

fn cut_claim(rng: &mut Rng, case: &mut Case) {
    case.claim.truncate(rng.below(8));
    end_input(rng, case);
}

fn spoil_claim_length(rng: &mut Rng, case: &mut Case) {
    change_length(rng, &mut case.claim);
    end_input(rng, case);
}

/// Takes the proof away once in two: else the program would read the claim on into the proof.
fn end_input(rng: &mut Rng, case: &mut Case) {
    if rng.once_in(2) {
        case.proof.clear();
    }
}

fn spoil_claim_header(rng: &mut Rng, claim: &mut [u8]) {
    match rng.below(5) {
        0 => claim[0] = 0,
        1 => claim[0] = past_byte(rng, 9),
        2 => claim[1] = past_byte(rng, 65),
        3 if claim[0] < 8 => claim[2] |= 1 << past(rng, claim[0].into()..=7),
        _ => claim[3] = past_byte(rng, 1),
    }
}

/// Makes a sheet longer, or shorter but no shorter than its header.
fn change_length(rng: &mut Rng, sheet: &mut Vec<u8>) {
    if sheet.len() > 8 && rng.once_in(2) {
        sheet.truncate(8 + rng.below(sheet.len() - 8));
    } else {
        let more = 1 + rng.below(20);
        sheet.extend(rng.bytes(more));
    }
}

fn spoil_coefficient(rng: &mut Rng, claim: &mut [u8]) {
    let ClaimPlaces { t, coefficients, .. } = ClaimPlaces::of(claim);
    let wrong = if rng.once_in(2) { 0 } else { beyond(rng, MOST) };
    put_word(claim, coefficients + 4 * rng.below(t), wrong);
}

fn spoil_exponent(rng: &mut Rng, points: Range<usize>, sheet: &mut [u8], profile: &Profile) {
    let past = past_byte(rng, profile.exponent as u8 + 1);
    sheet[points.start + rng.below(points.len())] = past;
}

/// Makes a point equal to the one before it, or lower in one exponent.
fn spoil_order(rng: &mut Rng, claim: &mut [u8]) {
    let ClaimPlaces { n, t, points, .. } = ClaimPlaces::of(claim);
    let start = points.start + n * (1 + rng.below(t - 1));
    claim.copy_within(start - n..start, start);
    let exponent = &mut claim[start + rng.below(n)];
    *exponent -= rng.below(usize::from(*exponent) + 1) as u8;
}

fn spoil_proof_header(rng: &mut Rng, proof: &mut [u8], profile: &Profile) {
    let rows = past(rng, profile.rows as u16 + 1..=65_535);
    let scale = (1 << 20) + 1 + rng.below(1 << 20) as i32;
    match rng.below(6) {
        0 => proof[0] = rng.pick(&[0, proof[0] % 8 + 1]),
        1 => proof[0] = past_byte(rng, 9),
        2 => proof[1] = past_byte(rng, 1),
        3 => proof[2..4].copy_from_slice(&rows.to_le_bytes()),
        4 => put_word(proof, 4, rng.pick(&[0, -1, i32::MIN])),
        _ => put_word(proof, 4, rng.pick(&[scale, (1 << 20) + 1])),
    }
}

/// Changes the length or the number of rows it is measured by.
fn spoil_proof_length(rng: &mut Rng, proof: &mut Vec<u8>, profile: &Profile) {
    if rng.once_in(2) {
        change_length(rng, proof);
    } else {
        let (k, most) = (ProofPlaces::of(proof).k, profile.rows as usize);
        let other = (k + 1 + rng.below(most)) % (most + 1);
        proof[2..4].copy_from_slice(&(other as u16).to_le_bytes());
    }
}

/// Makes the sum of two exponents odd.
fn spoil_midpoint(rng: &mut Rng, proof: &mut [u8]) {
    let places = ProofPlaces::of(proof);
    let (v, w) = places.row(proof, rng.below(places.k));
    let variable = rng.below(places.n);
    v[variable] = w[variable];
    w[variable] = if w[variable] == 0 { 1 } else { w[variable] - 1 };
}

fn spoil_lone_row(rng: &mut Rng, proof: &mut [u8]) {
    let places = ProofPlaces::of(proof);
    let row = rng.below(places.k);
    let (v, w) = places.row(proof, row);
    w.copy_from_slice(v);
    let place = places.weights + 12 * row + rng.pick(&[4, 8]);
    put_word(proof, place, rng.pick(&[1, -1, 1 << 30, i32::MIN]));
}

/// Puts a weight beyond ± the greatest; of a lone row that can only be p.
fn spoil_weight(rng: &mut Rng, proof: &mut [u8], profile: &Profile) {
    let places = ProofPlaces::of(proof);
    let row = rng.below(places.k);
    let (v, w) = places.row(proof, row);
    let weight = if v == w { 0 } else { rng.below(3) };
    let beyond = beyond(rng, profile.weight as i32);
    put_word(proof, places.weights + 12 * row + 4 * weight, beyond);
}

/// Makes the sheet shorter or longer, changes n, or puts a right sheet of another n.
fn spoil_limits_length(rng: &mut Rng, sheet: &mut Vec<u8>) {
    let (other, past, more) = (sheet[0] % 8 + 1, past_byte(rng, 9), 1 + rng.below(20));
    match rng.below(5) {
        0 => sheet.clear(),
        1 => sheet.truncate(rng.below(sheet.len())),
        2 => sheet.extend(rng.bytes(more)),
        3 => sheet[0] = rng.pick(&[0, other, past]),
        _ => *sheet = limits::right(rng, other.into()).bytes(),
    }
}

/// Puts wrong limits for a variable or two.
fn spoil_limits(rng: &mut Rng, sheet: &mut [u8]) {
    let n = usize::from(sheet[0]);
    for _ in 0..1 + rng.below(2) {
        let (variable, wrong) = (rng.below(n), limits::wrong(rng));
        let entry = 1 + 3 * variable;
        sheet[entry] = wrong.power;
        sheet[entry + 1..entry + 3].copy_from_slice(&wrong.limit.to_le_bytes());
        put_word(sheet, 1 + 3 * n + 4 * variable, wrong.multiplier as i32);
    }
}

fn spoil_count(rng: &mut Rng, offsets: &mut Vec<i32>) {
    if rng.once_in(2) {
        offsets.truncate(rng.below(offsets.len()));
    } else {
        offsets.push(0);
    }
}

/// So many bytes fewer than a text has: one, some or all.
pub fn too_short(rng: &mut Rng) -> isize {
    let some = -1 - rng.below(400) as isize;
    rng.pick(&[-1, some, isize::MIN])
}

/// A length that is not a page's: none, one byte less or more, the lines without their line feeds,
/// or any.
pub fn wrong_page_length(rng: &mut Rng) -> usize {
    let (shorter, longer) = (rng.below(PAGE_LENGTH), PAGE_LENGTH + 1 + rng.below(PAGE_LENGTH));
    rng.pick(&[0, PAGE_LENGTH - 1, PAGE_LENGTH + 1, PAGE_LENGTH - 40, shorter, longer])
}
