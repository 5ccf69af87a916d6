//! The command's entry; all else stands in the library beside it.

use std::process::ExitCode;

fn main() -> ExitCode {
    burmelox_command::run(std::env::args_os().skip(1)).into()
}
