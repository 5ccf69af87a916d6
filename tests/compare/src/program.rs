//! The program, run on its standard input.

use std::env;
use std::fs::File;
use std::io::{ErrorKind, Read, Write};
use std::path::PathBuf;
use std::process::{Child, Command, Output, Stdio};
use std::thread::sleep;
use std::time::Duration;

/// The program is there, or what to do about it.
pub fn is_built() -> Result<(), String> {
    let path = path();
    if path.exists() {
        return Ok(());
    }
    Err(format!(
        "{} is missing: run `make` at the project's root, or name the program in BURMELOX_PROGRAM",
        path.display()
    ))
}

/// What the program prints for the input, which is handed over at once.
pub fn print(input: &[u8]) -> Result<String, String> {
    print_pieces(&[input])
}

/// What the program prints for an input that comes in pieces, with time between them.
pub fn print_pieces(pieces: &[&[u8]]) -> Result<String, String> {
    let path = path();
    let child = Command::new(&path).stdin(Stdio::piped()).stdout(Stdio::piped()).spawn();
    let mut child = child.map_err(|error| format!("{}: {error}", path.display()))?;
    feed(&mut child, pieces)?;
    let mut text = String::new();
    let output = child.stdout.as_mut().expect("standard output is piped");
    output.read_to_string(&mut text).map_err(|error| format!("reading the text: {error}"))?;
    let status = child.wait().map_err(|error| format!("waiting for the program: {error}"))?;
    if status.success() {
        Ok(text)
    } else {
        Err(format!("the program ended with {status} after printing {text:?}"))
    }
}

/// How the program ends, and what it leaves, with these as its standard input and output.
pub fn end(input: File, output: impl Into<Stdio>) -> Result<Output, String> {
    let path = path();
    let output = Command::new(&path).stdin(input).stdout(output).output();
    output.map_err(|error| format!("{}: {error}", path.display()))
}

/// Writes the pieces and ends the input. A program that stops reading at its limit is no mistake.
fn feed(child: &mut Child, pieces: &[&[u8]]) -> Result<(), String> {
    let mut input = child.stdin.take().expect("standard input is piped");
    for (index, piece) in pieces.iter().enumerate() {
        if index > 0 {
            sleep(Duration::from_millis(20));
        }
        match input.write_all(piece) {
            Err(error) if error.kind() != ErrorKind::BrokenPipe => {
                return Err(format!("writing the input: {error}"));
            }
            _ => {}
        }
    }
    Ok(())
}

fn path() -> PathBuf {
    env::var("BURMELOX_PROGRAM").map_or_else(
        |_| PathBuf::from(env!("CARGO_MANIFEST_DIR")).join("../../target/bin/burmelox_check"),
        PathBuf::from,
    )
}
