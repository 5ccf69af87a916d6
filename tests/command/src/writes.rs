//! What the command leaves in files: all of it or nothing.

use crate::binary;
use harness::files;
use harness::folder::Folder;
use harness::report::{equal, Outcome, Report};
use std::fs;
use std::os::unix::fs::symlink;

pub fn run(report: &mut Report) {
    report.add("the exact proof and the page", are_written());
    report.add("the claim with the floor that was found", is_found());
    report.add("the text and the sheet", are_coded());
    report.add("nothing for a refusal but its page", are_refused());
    report.add("nothing where printing fails", is_unprinted());
    report.add("nothing where a write fails", is_unwritten());
    report.add("a link and a device as targets", are_no_plain_files());
}

fn are_written() -> Outcome {
    let folder = Folder::new("written");
    let (exact, page) = (folder.write("exact", "old"), folder.path("page"));
    binary::run(&["check", "examples/H.sheet", "-o", &exact, "--page", &page]).ends_with(0)?;
    let sheet = files::read("examples/G.sheet")?;
    equal("the exact proof", &sheet[32..].to_vec(), &folder.read("exact"))?;
    equal("the page", &files::read("examples/G.page")?, &folder.read("page"))?;
    binary::run(&["check", "examples/G.sheet", &exact]).ends_with(0)?;
    binary::run(&["check", "examples/G.sheet", "examples/H.sheet"]).ends_with(0)?;
    equal("the files", &names(&["exact", "page"]), &folder.names())
}

fn names(names: &[&str]) -> Vec<String> {
    names.iter().map(|name| name.to_string()).collect()
}

fn is_found() -> Outcome {
    let folder = Folder::new("found");
    let (exact, claim) = (folder.path("exact"), folder.path("claim"));
    let search = ["search", "examples/D.sheet", "--from", "-9000", "--to", "9000"];
    let run = binary::run(&[&search[..], &["-o", &exact, "--claim", &claim]].concat());
    run.ends_with(0)?;
    equal(
        "the claim is told",
        &true,
        &run.text().starts_with("claim\nvariables 1\nmask 0\nfloor 0\n"),
    )?;
    equal("the floor", &true, &run.text().ends_with("\nfound floor 0 tried 9001 rows 1\n"))?;
    let check = binary::run(&["check", &claim, &exact]);
    check.ends_with(0)?;
    equal("it is accepted", &true, &check.text().ends_with("accepted rows 1 scale 1 floor 0\n"))
}

fn are_coded() -> Outcome {
    let folder = Folder::new("coded");
    let (text, sheet) = (folder.path("text"), folder.path("sheet"));
    let decoded = binary::run(&["decode", "examples/G.sheet", "-o", &text]);
    decoded.ends_with(0)?;
    equal("nothing is printed", &String::new(), &decoded.text())?;
    binary::run(&["encode", &text, "-o", &sheet]).ends_with(0)?;
    equal("the sheet", &files::read("examples/G.sheet")?, &folder.read("sheet"))
}

fn are_refused() -> Outcome {
    let folder = Folder::new("nothing");
    let (exact, page) = (folder.path("exact"), folder.path("page"));
    binary::run(&["check", "examples/D.sheet", "-o", &exact, "--page", &page]).ends_with(1)?;
    equal("the page", &files::read("examples/D.page")?, &folder.read("page"))?;
    fs::remove_file(&page).expect("the page is there");
    let search = ["search", "examples/G.sheet", "--from", "1", "--to", "9", "-o", &exact];
    binary::run(&[&search[..], &["--claim", &page]].concat()).ends_with(1)?;
    binary::run(&["decode", "examples/B-masked-past.sheet", "-o", &exact]).ends_with(1)?;
    equal("the files", &names(&[]), &folder.names())
}

fn is_unprinted() -> Outcome {
    let folder = Folder::new("unprinted");
    let (exact, page) = (folder.path("exact"), folder.path("page"));
    let arguments = ["check", "examples/G.sheet", "-o", &exact, "--page", &page];
    binary::run_redirected(&arguments, ">&-").is_trouble("closed")?;
    binary::run_redirected(&arguments, ">/dev/full").is_trouble("No space")?;
    equal("the files", &names(&[]), &folder.names())
}

/// A folder that is not there, a directory as the second target, and one target twice.
fn is_unwritten() -> Outcome {
    let folder = Folder::new("unwritten");
    let (exact, gone) = (folder.write("exact", "old"), folder.path("gone/page"));
    let check = ["check", "examples/G.sheet", "-o", &exact, "--page"];
    binary::run(&[&check[..], &[&gone]].concat()).is_trouble("gone/page: No such file")?;
    binary::run(&[&check[..], &[&folder.path("")]].concat()).is_trouble("Is a directory")?;
    binary::run(&[&check[..], &[&exact]].concat()).is_trouble("exact: File exists")?;
    binary::run(&[&check[..], &["-"]].concat()).is_trouble("- is no file to write to")?;
    equal("the old file", &b"old".to_vec(), &folder.read("exact"))?;
    equal("the files", &names(&["exact"]), &folder.names())
}

/// A link stays a link to what is written, and a device stays a device.
fn are_no_plain_files() -> Outcome {
    let folder = Folder::new("link");
    let (target, link) = (folder.write("target", "old"), folder.path("link"));
    symlink(&target, &link).map_err(|error| error.to_string())?;
    binary::run(&["check", "examples/G.sheet", "-o", &link]).ends_with(0)?;
    equal("the target is written", &56, &folder.read("target").len())?;
    equal(
        "the link is one",
        &true,
        &fs::symlink_metadata(&link).is_ok_and(|found| found.is_symlink()),
    )?;
    let full = binary::run(&["check", "examples/G.sheet", "-o", "/dev/full"]);
    full.ends_with(2)?;
    equal("the device is told", &true, &full.err.contains("/dev/full: No space left on device"))?;
    equal("the files", &names(&["link", "target"]), &folder.names())
}
