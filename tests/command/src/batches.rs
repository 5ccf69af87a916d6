//! Batches: results in the order of their list, runs that were cut and go on, trouble with lines.

use crate::binary;
use harness::folder::Folder;
use harness::report::{equal, Outcome, Report};
use std::fs;

pub fn run(report: &mut Report) {
    report.add("results in the order of the list", are_in_order());
    report.add("a run that was cut goes on", is_resumed(&[]));
    report.add("a run with --json that was cut goes on", is_resumed(&["--json"]));
    report.add("results of another list", are_held_against_list());
    report.add("trouble with single lines", is_told());
    report.add("statuses of batches", have_statuses());
    report.add("lists with tabs, comments and from standard input", are_read());
    report.add("a batch under a profile", is_profiled());
}

/// A list of accepted and refused sheets in a random-looking order, with large ones between.
fn long_list(folder: &Folder) -> String {
    let files = ["G", "D", "forty-rows", "A", "post-9", "two-simplices", "I"];
    let line = |index: usize| format!("examples/{}.sheet - -\n", files[index * index % 31 % 7]);
    folder.write("list", (0..3000).map(line).collect::<String>())
}

/// What a batch of one job prints.
fn results(list: &str, options: &[&str]) -> Vec<u8> {
    binary::run(&[&["batch", list, "--jobs", "1"], options].concat()).out
}

fn are_in_order() -> Outcome {
    let folder = Folder::new("order");
    let list = long_list(&folder);
    let expected = results(&list, &[]);
    let text = String::from_utf8_lossy(&expected).into_owned();
    let lines = text.lines().map(|line| line.split_once('\t').map_or("", |(_, line)| line));
    let listed: String = lines.map(|line| format!("{line}\n")).collect();
    equal("the list's lines", &folder.read("list"), &listed.into_bytes())?;
    for jobs in ["2", "3", "16", "100"] {
        let run = binary::run(&["batch", &list, "--jobs", jobs]);
        run.ends_with(1)?;
        equal(&format!("results of {jobs} jobs are the same"), &true, &(run.out == expected))?;
    }
    binary::run(&["batch", &list]).ends_with(1)
}

/// Cut after some results, within a line, before the first and after the last.
fn is_resumed(options: &[&str]) -> Outcome {
    let folder = Folder::new("resumed");
    let list = long_list(&folder);
    let expected = results(&list, options);
    for length in [0, 1, 40, 5000, 5001, 5020, expected.len() - 1, expected.len()] {
        let file = folder.write("results", &expected[..length]);
        let arguments = [&["batch", &list, "-o", &file, "--resume"], options].concat();
        let run = binary::run(&arguments);
        run.ends_with(1)?;
        let same = folder.read("results") == expected;
        equal(&format!("results cut after {length} bytes are whole again"), &true, &same)?;
    }
    fs::remove_file(folder.path("results")).map_err(|error| error.to_string())?;
    let file = folder.path("results");
    binary::run(&[&["batch", &list, "-o", &file, "--resume"], options].concat()).ends_with(1)?;
    equal("results of a run that did not begin", &true, &(folder.read("results") == expected))
}

fn are_held_against_list() -> Outcome {
    let folder = Folder::new("held");
    let list = folder.write("list", "examples/G.sheet\nexamples/D.sheet\n");
    let written = "accepted rows 3 scale 1 floor 0\texamples/G.sheet\n";
    for (results, told) in [
        (format!("{written}{written}"), "results:2: not the result of the next line of"),
        (written.replace('G', "A"), "results:1: not the result"),
        ("something else\n".to_string(), "results:1: not the result"),
        (format!("{written}refused 19 at 0\texamples/D.sheet\n{written}"), "results:3: not"),
    ] {
        let file = folder.write("results", &results);
        binary::run(&["batch", &list, "-o", &file, "--resume"]).is_trouble(told)?;
        equal("the file is as it was", &results.into_bytes(), &folder.read("results"))?;
    }
    let file = folder.write("results", written);
    binary::run(&["batch", &list, "-o", &file]).is_trouble("there is something in it already")?;
    binary::run(&["batch", &list, "--resume"]).is_trouble("--resume needs the results' file")
}

fn is_told() -> Outcome {
    let folder = Folder::new("trouble");
    let text = folder.write("wrong.text", "claim\nvariables x\n");
    let list = format!("examples/none\nexamples/G.sheet\n{text}\na b c d\n-\nexamples\n");
    let run = binary::run(&["batch", &folder.write("list", list)]);
    run.ends_with(2)?;
    let expected = format!(
        "trouble examples/none: No such file or directory\texamples/none\n\
         accepted rows 3 scale 1 floor 0\texamples/G.sheet\n\
         trouble {text}:2:11: expected a whole number, found \"x\"\t{text}\n\
         trouble the line names more than claim, proof and limits\ta b c d\n\
         trouble the line names no claim\t-\n\
         trouble examples: Is a directory\texamples\n"
    );
    equal("the results", &expected, &run.text())?;
    let summary = "accepted 1, refused 0, trouble 5; 6 in ";
    equal("the summary", &true, &run.err.starts_with(summary))
}

fn have_statuses() -> Outcome {
    let folder = Folder::new("batches");
    for (status, lines) in [
        (0, ""),
        (0, "# none\n\n"),
        (0, "examples/G.sheet"),
        (1, "examples/G.sheet\nexamples/D.sheet\nexamples/A.sheet\n"),
        (2, "examples/none.sheet\nexamples/D.sheet\n"),
    ] {
        binary::run(&["batch", &folder.write("list", lines)]).ends_with(status)?;
    }
    let list = folder.write("list", "examples/G.sheet\n");
    binary::run(&["batch", &list, "-o", "/dev/full"]).is_trouble("/dev/full: No space")?;
    binary::run(&["batch", &list, "-o", &folder.path("")]).is_trouble("Is a directory")
}

fn are_read() -> Outcome {
    let folder = Folder::new("lists");
    let spaced = folder.path("two words.sheet");
    fs::copy(harness::files::path("examples/line-limited.sheet"), &spaced)
        .map_err(|error| error.to_string())?;
    let list = format!(
        "  # a comment\r\n{spaced}\t-\texamples/line-limited.limits\r\n\
         \n examples/line-limited.sheet  -  examples/line-limited.limits\n{spaced}\t"
    );
    let run = binary::run_with(&["batch", "-"], list.as_bytes());
    run.ends_with(1)?;
    let expected = format!(
        "accepted rows 1 scale 10 floor -5\t{spaced}\t-\texamples/line-limited.limits\n\
         accepted rows 1 scale 10 floor -5\t examples/line-limited.sheet  -  examples/line-limited.limits\n\
         refused 19 at 0\t{spaced}\t\n"
    );
    equal("the results", &expected, &run.text())
}

fn is_profiled() -> Outcome {
    let folder = Folder::new("profiled");
    let list = folder.write("list", "examples/G.sheet\n");
    let run = binary::run(&["batch", &list, "--profile", "3,100,10"]);
    run.ends_with(1)?;
    equal("the result", &"refused 6 at 2\texamples/G.sheet\n".to_string(), &run.text())
}
