//! Generators of random sheets.
//!
//! `plan` makes sheets backwards, from the weights they are to have after the shift, by a `shape`
//! and `rows`; `breaks` puts faults into their bytes; `limits` has limits sheets, `profiles`
//! profiles, `offsets` evaluations and 21, `ranges` the floors of searches; `kinds` lists what is
//! generated.

mod breaks;
mod kinds;
mod limits;
mod offsets;
mod plan;
mod profiles;
mod ranges;
mod rng;
mod rows;
mod shape;

pub use kinds::Kind;
pub use offsets::offsets;
pub use plan::Plan;
pub use profiles::larger;
pub use ranges::Floors;
pub use rng::Rng;
pub use shape::Shape;
