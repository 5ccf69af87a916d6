//! The profile of document 02's note 7: refusal 27. Its exponent is read by 6 and 12, its number of
//! rows by 9, its weight by 15 and 17.

use crate::verdict::{refuse_if, Refusal};
use site::Profile;

/// Refuses a profile that is out of range.
pub fn check(profile: Profile) -> Result<(), Refusal> {
    let Profile { exponent, weight, rows } = profile;
    refuse_if(27, exponent > 120 || !(1..=1 << 30).contains(&weight) || rows > 256)
}
