//! The exit status of each subcommand, also where standard output or a file is no good.

use crate::binary;
use harness::files;
use harness::folder::Folder;
use harness::report::{equal, Outcome, Report};
use sheets::random::Rng;
use std::fs::File;
use std::io::pipe;

/// A run of each subcommand that is accepted or done, that is refused, and that is trouble.
const RUNS: &[(i32, &[&str])] = &[
    (0, &["--help"]),
    (0, &["--version"]),
    (2, &[]),
    (2, &["juggle"]),
    (0, &["help", "check"]),
    (2, &["help", "juggle"]),
    (0, &["check", "examples/G.sheet"]),
    (0, &["check", "examples/line-limited.sheet", "--limits", "examples/line-limited.limits"]),
    (0, &["check", "examples/A.sheet", "--profile", "2,2,1"]),
    (1, &["check", "examples/A.sheet", "--profile", "2,1,1"]),
    (1, &["check", "examples/A.sheet", "--profile", "121,1,1"]),
    (1, &["check", "examples/D.sheet"]),
    (1, &["check", "examples/B-masked-past.sheet"]),
    (2, &["check", "examples/none.sheet"]),
    (2, &["check"]),
    (2, &["check", "examples/G.sheet", "--profile", "2,1"]),
    (2, &["check", "-", "-"]),
    (0, &["search", "examples/G.sheet", "--from", "-10000", "--to", "10000"]),
    (1, &["search", "examples/G.sheet", "--from", "1", "--to", "10"]),
    (1, &["search", "examples/G.sheet", "--from", "1", "--to", "10000"]),
    (1, &["search", "examples/G.sheet", "--from", "2", "--to", "1"]),
    (1, &["search", "examples/G.sheet", "--from", "-2000000000", "--to", "1"]),
    (2, &["search", "examples/G.sheet", "--from", "1"]),
    (2, &["search", "examples/G.sheet", "--from", "1", "--to", "x"]),
    (0, &["evaluate", "examples/G.sheet", "1", "-2"]),
    (1, &["evaluate", "examples/G.sheet", "1"]),
    (1, &["evaluate", "examples/J.sheet", "3"]),
    (2, &["evaluate", "examples/G.sheet", "1", "x"]),
    (0, &["decode", "examples/G.sheet"]),
    (1, &["decode", "examples/B-masked-past.sheet"]),
    (1, &["decode", "examples/G.sheet", "--as", "proof"]),
    (2, &["decode", "examples/G.sheet", "--as", "poem"]),
    (2, &["encode", "examples/none.text"]),
    (0, &["explain", "19"]),
    (2, &["explain", "28"]),
    (2, &["explain", "0x100130000"]),
    (2, &["batch", "examples/none.list"]),
    (2, &["batch", "examples/G.sheet", "--jobs", "0"]),
];

/// Runs that print something.
const PRINTING: &[&[&str]] = &[
    &["--help"],
    &["check", "--help"],
    &["check", "examples/G.sheet"],
    &["check", "examples/D.sheet", "--json"],
    &["search", "examples/G.sheet", "--from", "0", "--to", "0"],
    &["evaluate", "examples/G.sheet", "1", "1"],
    &["decode", "examples/G.sheet"],
    &["explain", "1"],
];

pub fn run(report: &mut Report) {
    for (status, arguments) in RUNS {
        let name = format!("status {status} of burmelox {}", arguments.join(" "));
        report.add(&name, binary::run(arguments).ends_with(*status));
    }
    for arguments in PRINTING {
        let name = format!("burmelox {} that can't print", arguments.join(" "));
        report.add(&name, cant_print(arguments));
    }
    report.add("sheets and texts on standard input", are_read_from_input());
    report.add("a batch that can't print", batch_cant_print());
    report.add("help of every subcommand", is_helpful());
    report.add("what misuse is told", is_misused());
    report.add("what a file may be", is_ambiguous());
    report.add("a directory in place of a file", is_directory());
    report.add("a file of 16 MiB and more", is_too_long());
    report.add("10 MB of noise", is_noise());
    report.add("the least and the greatest floors", are_ends_of_floors());
}

/// Standard output that is closed, full, not open for writing, or a pipe that nobody reads.
fn cant_print(arguments: &[&str]) -> Outcome {
    binary::run_redirected(arguments, ">&-").is_trouble("standard output is closed")?;
    binary::run_redirected(arguments, "1</dev/null").is_trouble("standard output")?;
    let full = File::options().write(true).open("/dev/full").expect("the device is there");
    binary::run_onto(arguments, full).is_trouble("standard output: No space")?;
    let (reader, writer) = pipe().expect("a pipe can be made");
    drop(reader);
    binary::run_onto(arguments, writer).is_trouble("standard output: Broken pipe")
}

fn batch_cant_print() -> Outcome {
    let folder = Folder::new("full");
    let list = folder.write("list", "examples/G.sheet\n".repeat(1000));
    cant_print(&["batch", &list])?;
    cant_print(&["batch", &list, "--jobs", "1"])
}

fn are_read_from_input() -> Outcome {
    let sheet = files::read("examples/G.sheet")?;
    let text = binary::run(&["decode", "examples/G.sheet"]).out;
    for input in [&sheet, &text] {
        binary::run_with(&["check", "-"], input).ends_with(0)?;
        binary::run_with(&["evaluate", "-", "0", "0"], input).ends_with(0)?;
        let decoded = binary::run_with(&["decode", "-"], input);
        equal("the text", &text, &decoded.out)?;
    }
    binary::run_with(&["encode", "-"], &sheet).is_trouble("standard input:1:1: expected")?;
    binary::run_with(&["check", "-"], b"").ends_with(1)
}

fn is_helpful() -> Outcome {
    let all = binary::run(&["--help"]).text();
    for name in ["check", "search", "evaluate", "encode", "decode", "explain", "picture", "batch"] {
        equal("the subcommand is listed", &true, &all.contains(&format!("\n  {name} ")))?;
        let help = binary::run(&[name, "--help"]);
        help.ends_with(0)?;
        let usage = format!("usage: burmelox {name} ");
        equal("the usage comes first", &true, &help.text().starts_with(&usage))?;
    }
    Ok(())
}

fn is_misused() -> Outcome {
    equal("help", &binary::run(&["check", "--help"]).out, &binary::run(&["help", "check"]).out)?;
    let evaluated = binary::run(&["evaluate", "examples/G.sheet", "1.5", "1"]);
    evaluated.is_trouble("expected a whole number of 32 bits, found \"1.5\"")?;
    binary::run(&["chek"]).is_trouble("no subcommand chek (did you mean check?)")?;
    let written = binary::run(&["check", "examples/G.sheet", "-o", "no/folder/proof"]);
    written.is_trouble("cannot write no/folder/proof: No such file")?;
    binary::run_with(&["encode", "-"], b"").is_trouble("standard input: the file is empty")?;
    let checked = binary::run_with(&["check", "-"], b"").text();
    equal("it is empty", &true, &checked.contains("at fault: standard input: the file is empty\n"))
}

/// A claim without terms may be a proof without rows, and more.
fn is_ambiguous() -> Outcome {
    let folder = Folder::new("ambiguous");
    let short = folder.write("short", [1, 0, 0, 0, 1, 0, 0, 0]);
    binary::run(&["decode", &short]).is_trouble("this may be claim or proof")?;
    let claim = binary::run(&["decode", &short, "--as", "claim"]);
    equal("the claim", &"claim\nvariables 1\nmask 0\nfloor 1\n".to_string(), &claim.text())?;
    let proof = binary::run(&["decode", &short, "--as", "proof"]);
    equal("the proof", &"proof\nvariables 1\nscale 1\n".to_string(), &proof.text())?;
    binary::run(&["check", &short]).is_trouble("there is no proof in this file")?;
    binary::run(&["check", &short, &short]).ends_with(1)
}

fn is_directory() -> Outcome {
    for arguments in [
        &["check", "examples"][..],
        &["check", "examples/G.sheet", "examples"],
        &["check", "examples/G.sheet", "--limits", "examples"],
        &["check", "examples/G.sheet", "-o", "examples"],
        &["evaluate", "examples", "1"],
        &["encode", "examples"],
        &["decode", "examples"],
        &["picture", "examples", "-o", "none"],
        &["picture", "examples/G.sheet", "-o", "examples"],
        &["batch", "examples"],
    ] {
        binary::run(arguments).is_trouble("examples: Is a directory")?;
    }
    Ok(())
}

fn is_too_long() -> Outcome {
    let folder = Folder::new("long");
    let mut bytes = vec![b'#'; 16 << 20];
    let longest = folder.write("longest", &bytes);
    binary::run(&["check", &longest]).is_trouble("longest:1:1: expected")?;
    bytes.push(b'#');
    let longer = folder.write("longer", &bytes);
    binary::run(&["check", &longer]).is_trouble("longer than 16 MiB")
}

/// Noise that begins as a text, and noise that begins as a sheet of each number of variables.
fn is_noise() -> Outcome {
    let folder = Folder::new("noise");
    let mut noise = Rng::new(1).bytes(10_000_000);
    for first in 0..=12 {
        noise[0] = first;
        let file = folder.write("noise", &noise);
        let status = if first > 8 { 2 } else { 1 };
        binary::run(&["check", &file]).ends_with(status)?;
        binary::run(&["check", "examples/G.sheet", &file]).ends_with(status)?;
        binary::run(&["evaluate", &file, "1"]).ends_with(status)?;
        binary::run(&["decode", &file]).ends_with(status)?;
        binary::run(&["encode", &file]).is_trouble("noise:")?;
    }
    binary::run(&["batch", &folder.path("noise")]).ends_with(2)
}

/// A search over all floors up to the ends, and past them.
fn are_ends_of_floors() -> Outcome {
    let search = |from: i64, to: i64| {
        let (from, to) = (from.to_string(), to.to_string());
        binary::run(&["search", "examples/G.sheet", "--from", &from, "--to", &to])
    };
    let most = 1 << 30;
    let found = search(-most, 5000);
    equal(
        "5,001 floors are tried",
        &true,
        &found.text().ends_with("found floor 0 tried 5001 rows 3\n"),
    )?;
    for (from, to) in [(-most - 1, 5000), (0, most + 1), (i64::MIN, i64::MAX)] {
        let refused = search(from, to);
        refused.ends_with(1)?;
        equal("22 is said", &true, &refused.text().contains("\nrefused 22 at 0\n"))?;
    }
    Ok(())
}
