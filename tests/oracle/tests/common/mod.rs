//! What several files of tests ask of the oracle.

use oracle::{check, check_page, evaluate, search, verdict, Refusal};
use oracle::{claim_text, limits_text, profile_text, proof_text};
use refusals::EntryPoint;
use sheets::Case;

/// The refusal that an entry point answers to a case, where it refuses.
pub fn refusal(entry_point: EntryPoint, case: &Case) -> Option<Refusal> {
    let Case { claim, proof, limits, profile, room, page, offsets, lo, hi, .. } = case;
    let (profile, room) = (*profile, *room);
    match entry_point {
        EntryPoint::Check => check(claim, proof, limits, profile, room).err(),
        EntryPoint::PageCheck => {
            check_page(claim, proof, limits, profile, room, *page).verdict.err()
        }
        EntryPoint::Evaluation => evaluate(claim, profile, offsets).err(),
        EntryPoint::Search => search(claim, proof, limits, profile, room, *lo, *hi).err(),
        EntryPoint::Program => verdict(&case.input()).err(),
        text => listing(text, case).err(),
    }
}

/// The text that an entry point writes into the case's buffer, or the refusal.
pub fn listing(text: EntryPoint, case: &Case) -> Result<String, Refusal> {
    let listing = |room| match text {
        EntryPoint::ClaimText => claim_text(&case.claim, room),
        EntryPoint::ProofText => proof_text(&case.proof, room),
        EntryPoint::LimitsText => limits_text(&case.limits, room),
        EntryPoint::ProfileText => profile_text(case.profile, room),
        other => panic!("{other:?} writes no text"),
    };
    listing(case.text_room(&listing(usize::MAX)))
}
