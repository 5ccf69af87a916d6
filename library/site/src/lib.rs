//! What a site hands over besides its sheets, as the library takes it.

/// A profile: the greatest exponent, weight and number of rows that a site allows. Nothing in it
/// has to be right.
#[repr(C)]
#[derive(Clone, Copy, Debug, PartialEq, Eq)]
pub struct Profile {
    pub exponent: u32,
    pub weight: u32,
    pub rows: u32,
}

impl Profile {
    /// The largest profile in range, which is the program's.
    pub const FULL: Profile = Profile { exponent: 120, weight: 1 << 30, rows: 256 };

    /// The smallest profile in range.
    pub const LEAST: Profile = Profile { exponent: 0, weight: 1, rows: 0 };
}
