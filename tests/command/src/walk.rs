//! The walk in README: its commands, run one after another in a folder of their own, print what it
//! says.

use harness::command::path;
use harness::files;
use harness::folder::Folder;
use harness::report::{equal, Outcome, Report};
use std::fs;
use std::os::unix::fs::symlink;
use std::process::Command;

pub fn run(report: &mut Report) {
    report.add("the walk in README", is_as_told());
}

fn is_as_told() -> Outcome {
    let blocks = blocks(&files::read_text("README.md")?, "## From decimals to a loaded curve");
    let [path_line, text, sessions @ ..] = &blocks[..] else {
        return Err("the walk has too few blocks".into());
    };
    equal("the path is told first", &true, &path_line.starts_with("export PATH=$PWD/command/"))?;
    let folder = Folder::new("walk");
    folder.write("curve.txt", set_in(text));
    fs::create_dir(folder.path("bin")).map_err(|error| error.to_string())?;
    symlink(path(), folder.path("bin/burmelox")).map_err(|error| error.to_string())?;
    let steps = steps(&sessions.concat());
    equal("some commands are told", &true, &(steps.len() > 5))?;
    steps.iter().try_for_each(|(line, told)| equal(line, told, &printed(&folder, line)?))
}

/// The blocks of a section that are set in by four spaces, without these.
fn blocks(text: &str, heading: &str) -> Vec<String> {
    let mut blocks = Vec::new();
    let mut was_in = false;
    let lines = text.lines().skip_while(|line| *line != heading).skip(1);
    for line in lines.take_while(|line| !line.starts_with("## ")) {
        let inner = line.strip_prefix("    ");
        if inner.is_some() && !was_in {
            blocks.push(String::new());
        }
        if let (Some(inner), Some(block)) = (inner, blocks.last_mut()) {
            block.push_str(inner);
            block.push('\n');
        }
        was_in = inner.is_some();
    }
    blocks
}

/// A block as it is pasted with the spaces before its lines.
fn set_in(text: &str) -> String {
    text.lines().map(|line| format!("    {line}\n")).collect()
}

/// The commands, each with the lines under it.
fn steps(session: &str) -> Vec<(String, String)> {
    let mut steps: Vec<(String, String)> = Vec::new();
    for line in session.lines() {
        match (line.strip_prefix("$ "), steps.last_mut()) {
            (Some(command), _) => steps.push((command.to_string(), String::new())),
            (None, Some((_, told))) => *told += &format!("{line}\n"),
            (None, None) => {}
        }
    }
    steps
}

/// What a line prints in the folder, to standard output and standard error.
fn printed(folder: &Folder, line: &str) -> Result<String, String> {
    let mut shell = Command::new("sh");
    shell.arg("-c").arg(format!("PATH=\"$PWD/bin:$PATH\"; {{ {line}; }} 2>&1"));
    let output = shell.current_dir(folder.path("")).output().map_err(|error| error.to_string())?;
    String::from_utf8(output.stdout).map_err(|error| error.to_string())
}
