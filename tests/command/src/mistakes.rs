//! Texts that can't be read or are refused, by file, line and column; and weights as decimals.

use crate::binary;
use harness::files;
use harness::folder::Folder;
use harness::report::{equal, Outcome, Report};

const CLAIM: &str = "claim\nvariables 1\nfloor 0\nterm coefficient 1 exponents 0\n";

pub fn run(report: &mut Report) {
    report.add("mistakes with file, line and column", are_placed());
    report.add("refusals of texts with file and line", are_refused_by_line());
    report.add("what is at fault, by its numbers", are_told_by_numbers());
    report.add("a claim and a proof that are swapped", are_swapped());
    report.add("weights as decimals", are_rounded());
    report.add("a solver's text from decimals to a verdict", is_accepted());
    report.add("whole numbers among scaled weights", are_warned_of());
    report.add("what a file does not hold", is_lacking());
}

fn are_placed() -> Outcome {
    let folder = Folder::new("mistakes");
    for (text, told) in [
        ("claim\nvariables x\n".to_string(), ":2:11: expected a whole number, found \"x\""),
        (
            format!("{CLAIM}term coefficient 9999999999 exponents 1"),
            ":5:18: expected a number from",
        ),
        (format!("{CLAIM}turm coefficient 1 exponents 1"), ":5:1: expected \"term\", \"proof\" or"),
        (format!("{CLAIM}proof\nvariables 1\nrow"), ":7:1: expected \"scale\", found \"row\""),
        (
            format!("{CLAIM}\u{e4}\n"),
            ":5:1: expected \"term\", \"proof\" or the text's end, found \"\u{e4}\"",
        ),
    ] {
        let file = folder.write("wrong.text", text);
        let told = format!("burmelox: {file}{told}");
        for arguments in [&["encode", &file][..], &["check", &file], &["decode", &file]] {
            binary::run(arguments).is_trouble(&told[10..])?;
        }
    }
    Ok(())
}

fn are_refused_by_line() -> Outcome {
    let folder = Folder::new("refused");
    for (text, told) in [
        (format!("{CLAIM}term coefficient 0 exponents 3"), "refused 5 at 1\n"),
        (format!("{CLAIM}term coefficient 1 exponents 121"), "refused 6 at 1\n"),
    ] {
        let file = folder.write("refused.text", text);
        let run = binary::run(&["encode", &file, "-o", &folder.path("sheet")]);
        run.ends_with(1)?;
        equal("the refusal", &true, &run.err.starts_with(told))?;
        let line = format!("\nat fault: {file}:5: term 1 coefficient ");
        equal("the line at fault is told", &true, &run.err.contains(&line))?;
    }
    equal("nothing is written", &vec!["refused.text".to_string()], &folder.names())
}

fn are_told_by_numbers() -> Outcome {
    let folder = Folder::new("numbers");
    let text = |n: u8, scale: u32| format!("{CLAIM}proof\nvariables {n}\nscale {scale}\n");
    let other = folder.write("other.text", text(2, 1));
    let unscaled = folder.write("unscaled.text", text(1, 0));
    let limits =
        folder.write("other.limits", [2; 1].into_iter().chain([0; 14]).collect::<Vec<u8>>());
    let sheet = "examples/G.sheet";
    for (arguments, told) in [
        (
            &["check", &other][..],
            "other.text:5: proof of variables 2 rows 0 scale 1: variables 2, the claim has 1",
        ),
        (&["check", &unscaled], "rows 0 scale 0: scale 0, not 1 to 1048576"),
        (&["check", "examples/A.sheet", "--limits", &limits], "variables 2, the claim has 1"),
        (
            &["check", sheet, "--profile", "4,4,2"],
            "examples/G.sheet: proof of variables 2 rows 3 scale 1: rows 3, the profile allows 2",
        ),
        (
            &["check", sheet, "--profile", "2,4,3"],
            "exponents 2 4: exponent 4, the profile allows 2",
        ),
        (&["check", sheet, "--profile", "4,3,3"], "r -4: weight 4, the profile allows 3"),
        (&["search", sheet, "--from", "2", "--to", "1"], "at fault: --from 2 is over --to 1"),
        (&["search", sheet, "--from", "0", "--to", "2000000000"], "--to 2000000000 is beyond"),
    ] {
        let run = binary::run(arguments);
        run.ends_with(1)?;
        equal(told, &true, &run.text().contains(told))?;
    }
    Ok(())
}

fn are_swapped() -> Outcome {
    let folder = Folder::new("swapped");
    let sheet = files::read("examples/G.sheet")?;
    let (claim, proof) = (folder.write("claim", &sheet[..32]), folder.write("proof", &sheet[32..]));
    for (files, told) in
        [([&proof, &claim], "proof reads as a proof"), ([&claim, &claim], "claim reads as a claim")]
    {
        let run = binary::run(&["check", files[0], files[1]]);
        run.ends_with(1)?;
        let told = format!("{told}: are CLAIM and PROOF swapped?\n");
        equal("it is asked", &(files[0] != files[1]), &run.text().ends_with(&told))?;
    }
    Ok(())
}

fn are_rounded() -> Outcome {
    let proof = |scale: u32, p: &str| {
        let text = format!("proof\nvariables 1\nscale {scale}\nrow lone v 2 p {p}\n");
        let sheet = binary::run_with(&["encode", "-"], text.as_bytes());
        let read = binary::run_with(&["decode", "-"], &sheet.out).text();
        read.trim_end().rsplit(' ').next().unwrap_or_default().to_string()
    };
    for (scale, written, read) in [
        (1000, "0.333", "333"),
        (1000, "0.0005", "1"),
        (1000, "-0.0005", "-1"),
        (1000, "0.00049999999999999999999999999999", "0"),
        (3, "1/3", "1"),
        (1 << 20, "1/3", "349525"),
        (1 << 20, "1.5e-3", "1573"),
        (1000, "7", "7"),
    ] {
        equal(&format!("{written} at scale {scale}"), &read.to_string(), &proof(scale, written))?;
    }
    Ok(())
}

/// Terms in any order, no indices, weights of the polynomial itself.
fn is_accepted() -> Outcome {
    let text = "# Motzkin's polynomial\nclaim\nvariables 2\nfloor 0\n\
        term coefficient 1 exponents 4 2\nterm coefficient -3 exponents 2 2\n\
        term coefficient 1 exponents 0 0\nterm coefficient 1 exponents 2 4\n\
        proof\nvariables 2\nscale 1000\n\
        row pair v 0 0 w 2 4 p 1.0 q 1.0 r -2.0\nrow pair v 1 2 w 3 2 p 2.0 q 2e0 r -4/1\n\
        row pair v 2 2 w 4 2 p 1.0 q 1.0 r -2.0\n";
    let run = binary::run_with(&["check", "-"], text.as_bytes());
    run.ends_with(0)?;
    let claim = binary::run(&["check", "examples/G.sheet"]).text();
    let claim = claim.split("accepted").next().unwrap_or_default();
    let expected = format!("{claim}accepted rows 3 scale 1000 floor 0\n");
    equal("the text", &expected, &run.text())
}

/// The first three are told and how many more there are, and the status is as without.
fn are_warned_of() -> Outcome {
    let proof = "proof\nvariables 1\nscale 10\nrow pair v 0 w 2 p 5 q 0.5 r 0\n";
    let run = binary::run_with(&["decode", "-"], proof.as_bytes());
    run.ends_with(0)?;
    let told = "burmelox: standard input:4:20: 5 stands as it is, the other weights are taken \
                times 10: write 5.0 if it is one of them\n";
    equal("one is told", &told.to_string(), &run.err)?;
    let more = "row lone v 2 p 1\n".repeat(4);
    let run = binary::run_with(&["encode", "-"], (proof.to_string() + &more).as_bytes());
    run.ends_with(0)?;
    let last = "burmelox: standard input: and 2 more whole numbers among the weights\n";
    equal("the rest is counted", &true, &run.err.ends_with(last))?;
    equal("the lines", &4, &run.err.lines().count())
}

fn is_lacking() -> Outcome {
    let folder = Folder::new("lacking");
    let claim = folder.write("claim.text", CLAIM);
    binary::run(&["check", &claim]).is_trouble("there is no proof in this file")?;
    binary::run(&["check", "examples/G.sheet", &claim]).is_trouble("there is no proof")?;
    binary::run(&["check", "examples/G.sheet", "--limits", &claim])
        .is_trouble("no limits sheet")?;
    let proof = folder.write("proof.text", "proof\nvariables 1\nscale 1\n");
    binary::run(&["evaluate", &proof, "1"]).is_trouble("there is no claim in this file")
}
