//! The command that is tested and timed.

use crate::files;
use std::env;
use std::path::PathBuf;

/// The command's path: where it is built, or what BURMELOX_COMMAND names.
pub fn path() -> PathBuf {
    let built = || files::path("command/target/release/burmelox");
    env::var("BURMELOX_COMMAND").map_or_else(|_| built(), PathBuf::from)
}

/// The command is there, or what to do about it.
pub fn is_built() -> Result<(), String> {
    let path = path();
    if path.exists() {
        return Ok(());
    }
    Err(format!(
        "{} is missing: run `cargo build --release --manifest-path command/Cargo.toml` at the \
         project's root, or name the command in BURMELOX_COMMAND",
        path.display()
    ))
}
