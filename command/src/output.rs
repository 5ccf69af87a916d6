//! Standard output and standard error.

use crate::status::{trouble, Trouble};
use std::fs::File;
use std::io::{stderr, Write};
use std::mem::ManuallyDrop;
use std::os::fd::FromRawFd;
use std::sync::atomic::{AtomicBool, Ordering};

/// Standard output was closed when the program began. The standard library opens the null device in
/// its place before `main`, where all that is written would be lost without a word.
static WAS_CLOSED: AtomicBool = AtomicBool::new(false);

/// The descriptor of standard output.
const STANDARD_OUTPUT: i32 = 1;

/// What asks for a descriptor's flags, which fails if it is closed.
const F_GETFD: i32 = 1;

extern "C" {
    fn fcntl(descriptor: i32, command: i32, ...) -> i32;
}

/// Looks at standard output before the standard library does.
extern "C" fn look() {
    // SAFETY: asking for flags takes no further argument and changes nothing.
    if unsafe { fcntl(STANDARD_OUTPUT, F_GETFD) } == -1 {
        WAS_CLOSED.store(true, Ordering::Relaxed);
    }
}

/// The functions in this section are called by the loader, before the standard library begins.
#[used]
#[link_section = ".init_array"]
static LOOK: extern "C" fn() = look;

/// Standard output as a file: unlike the standard library's handle it tells every failed write, and
/// keeps nothing back.
pub fn standard() -> Result<ManuallyDrop<File>, Trouble> {
    if WAS_CLOSED.load(Ordering::Relaxed) {
        return trouble("standard output is closed");
    }
    // SAFETY: the descriptor is open, and is not closed by this handle.
    Ok(ManuallyDrop::new(unsafe { File::from_raw_fd(STANDARD_OUTPUT) }))
}

/// Writes to standard output.
pub fn print(bytes: &[u8]) -> Result<(), Trouble> {
    let written = standard()?.write_all(bytes);
    written.map_err(|error| Trouble(format!("standard output: {}", reason(&error))))
}

/// Writes to standard error, which has nobody to tell if that fails.
pub fn complain(text: &str) {
    let _ = stderr().write_all(text.as_bytes());
}

/// The system's words for an error, without its number.
pub fn reason(error: &std::io::Error) -> String {
    let words = error.to_string();
    words.split(" (os error").next().unwrap_or_default().to_string()
}
