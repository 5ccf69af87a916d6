//! The proved static library, as Rust calls it. `include/burmelox.h` says the same for C.

pub use site::Profile;

/// The archive that is linked.
pub const ARCHIVE: &str = env!("BURMELOX_ARCHIVE");

extern "C" {
    fn burmelox_check(
        claim: *const u8,
        claim_len: usize,
        proof: *const u8,
        proof_len: usize,
        limits: *const u8,
        limits_len: usize,
        profile: Profile,
        output: *mut u8,
        output_len: usize,
    ) -> u64;

    fn burmelox_check_page(
        claim: *const u8,
        claim_len: usize,
        proof: *const u8,
        proof_len: usize,
        limits: *const u8,
        limits_len: usize,
        profile: Profile,
        output: *mut u8,
        output_len: usize,
        page: *mut u8,
        page_len: usize,
    ) -> u64;

    fn burmelox_evaluate(
        claim: *const u8,
        claim_len: usize,
        profile: Profile,
        offsets: *const i32,
        offsets_len: usize,
        value: *mut i64,
    ) -> u64;

    fn burmelox_search(
        claim: *const u8,
        claim_len: usize,
        proof: *const u8,
        proof_len: usize,
        limits: *const u8,
        limits_len: usize,
        profile: Profile,
        lo: i64,
        hi: i64,
        output: *mut u8,
        output_len: usize,
        floor: *mut i64,
        tried: *mut u32,
    ) -> u64;

    fn burmelox_claim_text(
        claim: *const u8,
        claim_len: usize,
        text: *mut u8,
        text_len: usize,
    ) -> u64;

    fn burmelox_proof_text(
        proof: *const u8,
        proof_len: usize,
        text: *mut u8,
        text_len: usize,
    ) -> u64;

    fn burmelox_limits_text(
        limits: *const u8,
        limits_len: usize,
        text: *mut u8,
        text_len: usize,
    ) -> u64;

    fn burmelox_profile_text(profile: Profile, text: *mut u8, text_len: usize) -> u64;
}

/// Checks a proof of a claim within limits, under a profile. Answers the number of rows where it is
/// accepted, and the first bytes of the output are then the exact proof; else the refusal: sheet ×
/// 2^32 + number × 2^16 + index.
pub fn check(
    claim: &[u8],
    proof: &[u8],
    limits: &[u8],
    profile: Profile,
    output: &mut [u8],
) -> u64 {
    // SAFETY: each pointer comes with the length of its slice.
    unsafe {
        burmelox_check(
            claim.as_ptr(),
            claim.len(),
            proof.as_ptr(),
            proof.len(),
            limits.as_ptr(),
            limits.len(),
            profile,
            output.as_mut_ptr(),
            output.len(),
        )
    }
}

/// Checks as `check` does, and writes the page of the verdict. A page of any other length than
/// 2,920 bytes is refused, and then nothing is written.
pub fn check_page(
    claim: &[u8],
    proof: &[u8],
    limits: &[u8],
    profile: Profile,
    output: &mut [u8],
    page: &mut [u8],
) -> u64 {
    // SAFETY: each pointer comes with the length of its slice.
    unsafe {
        burmelox_check_page(
            claim.as_ptr(),
            claim.len(),
            proof.as_ptr(),
            proof.len(),
            limits.as_ptr(),
            limits.len(),
            profile,
            output.as_mut_ptr(),
            output.len(),
            page.as_mut_ptr(),
            page.len(),
        )
    }
}

/// Evaluates a claim's polynomial at offsets, under a profile. Answers 0 and stores the value, else
/// a refusal as the check does.
pub fn evaluate(claim: &[u8], profile: Profile, offsets: &[i32], value: &mut i64) -> u64 {
    // SAFETY: each pointer comes with the length of its slice, and `value` is one number.
    unsafe {
        burmelox_evaluate(
            claim.as_ptr(),
            claim.len(),
            profile,
            offsets.as_ptr(),
            offsets.len(),
            value,
        )
    }
}

/// Searches the floors from `hi` down to `lo` for the highest whose check is accepted. Answers the
/// number of rows, stores the floor and how many were tried, and the first bytes of the output are
/// then that floor's exact proof; else a refusal as the check does, and nothing is stored.
pub fn search(
    claim: &[u8],
    proof: &[u8],
    limits: &[u8],
    profile: Profile,
    lo: i64,
    hi: i64,
    output: &mut [u8],
    floor: &mut i64,
    tried: &mut u32,
) -> u64 {
    // SAFETY: each pointer comes with the length of its slice; `floor` and `tried` are one number
    // each.
    unsafe {
        burmelox_search(
            claim.as_ptr(),
            claim.len(),
            proof.as_ptr(),
            proof.len(),
            limits.as_ptr(),
            limits.len(),
            profile,
            lo,
            hi,
            output.as_mut_ptr(),
            output.len(),
            floor,
            tried,
        )
    }
}

/// Writes the text of a claim that passes 1 to 7. Answers its length, else a refusal as the check
/// does, or by 30 where the buffer is shorter than the text; nothing is written then.
pub fn claim_text(claim: &[u8], text: &mut [u8]) -> u64 {
    // SAFETY: each pointer comes with the length of its slice.
    unsafe { burmelox_claim_text(claim.as_ptr(), claim.len(), text.as_mut_ptr(), text.len()) }
}

/// The same of a proof that passes 8 to 10 and 12 to 15 beside a claim of as many variables.
pub fn proof_text(proof: &[u8], text: &mut [u8]) -> u64 {
    // SAFETY: each pointer comes with the length of its slice.
    unsafe { burmelox_proof_text(proof.as_ptr(), proof.len(), text.as_mut_ptr(), text.len()) }
}

/// The same of a limits sheet that passes 24 and 25 beside a claim of as many variables.
pub fn limits_text(limits: &[u8], text: &mut [u8]) -> u64 {
    // SAFETY: each pointer comes with the length of its slice.
    unsafe { burmelox_limits_text(limits.as_ptr(), limits.len(), text.as_mut_ptr(), text.len()) }
}

/// The same of a profile that passes 27.
pub fn profile_text(profile: Profile, text: &mut [u8]) -> u64 {
    // SAFETY: the pointer comes with the length of its slice.
    unsafe { burmelox_profile_text(profile, text.as_mut_ptr(), text.len()) }
}
