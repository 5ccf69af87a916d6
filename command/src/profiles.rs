//! The profile that the arguments name.

use crate::arguments::Arguments;
use crate::status::{trouble, Trouble};
use burmelox::Profile;

/// The profile where there is one, as three numbers with commas; the library judges them.
pub fn given(arguments: &Arguments) -> Result<Option<Profile>, Trouble> {
    let Some(value) = arguments.value("--profile") else { return Ok(None) };
    let numbers: Result<Vec<u32>, _> = value.split(',').map(str::parse).collect();
    match numbers.as_deref() {
        Ok(&[exponent, weight, rows]) => Ok(Some(Profile { exponent, weight, rows })),
        _ => trouble(format!(
            "--profile: expected exponent, weight and rows, as 120,1073741824,256, found {value:?}"
        )),
    }
}
