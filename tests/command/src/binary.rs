//! The command, run as its users do.

use harness::command::path;
use harness::files;
use harness::report::{equal, Outcome};
use std::io::Write;
use std::process::{Command, Output, Stdio};

/// How a run ended: its status, and what it wrote to standard output and standard error.
#[derive(Debug)]
pub struct Run {
    pub status: i32,
    pub out: Vec<u8>,
    pub err: String,
}

impl Run {
    fn of(output: Output) -> Run {
        let err = String::from_utf8_lossy(&output.stderr).into_owned();
        Run { status: output.status.code().unwrap_or(-1), out: output.stdout, err }
    }

    /// Standard output as text.
    pub fn text(&self) -> String {
        String::from_utf8_lossy(&self.out).into_owned()
    }

    /// The run ended with this status.
    pub fn ends_with(&self, status: i32) -> Outcome {
        equal("the status", &status, &self.status).map_err(|words| format!("{words}\n{self:?}"))
    }

    /// Trouble was told, in words that have these among them, and nothing was printed.
    pub fn is_trouble(&self, words: &str) -> Outcome {
        self.ends_with(2)?;
        if self.err.starts_with("burmelox: ") && self.err.contains(words) && self.out.is_empty() {
            return Ok(());
        }
        Err(format!("expected trouble with {words:?}, found {self:?}"))
    }
}

/// The command with arguments, at the project's root.
fn command(arguments: &[&str]) -> Command {
    let mut command = Command::new(path());
    command.args(arguments).current_dir(files::path("")).stdin(Stdio::null());
    command
}

/// Runs the command.
pub fn run(arguments: &[&str]) -> Run {
    Run::of(command(arguments).output().expect("the command runs"))
}

/// Runs the command with bytes on its standard input.
pub fn run_with(arguments: &[&str], input: &[u8]) -> Run {
    let mut command = command(arguments);
    command.stdin(Stdio::piped()).stdout(Stdio::piped()).stderr(Stdio::piped());
    let mut child = command.spawn().expect("the command runs");
    // What stops reading early is no mistake.
    let _ = child.stdin.take().expect("standard input is piped").write_all(input);
    Run::of(child.wait_with_output().expect("the command ends"))
}

/// Runs the command with its standard output on a device or a pipe.
pub fn run_onto(arguments: &[&str], target: impl Into<Stdio>) -> Run {
    Run::of(command(arguments).stdout(target).output().expect("the command runs"))
}

/// Runs the command under a shell that changes its descriptors, as `>&-` does.
pub fn run_redirected(arguments: &[&str], redirection: &str) -> Run {
    let mut shell = Command::new("sh");
    shell.arg("-c").arg(format!("exec \"$0\" \"$@\" {redirection}")).arg(path()).args(arguments);
    shell.current_dir(files::path("")).stdin(Stdio::null());
    Run::of(shell.output().expect("the shell runs"))
}
