//! The pictures: well-formed, of what the sheets hold, and written whole or not at all.

use crate::binary;
use crate::xml;
use burmelox_command::held::{Contents, Kind};
use burmelox_command::sheet::{Claim, Proof};
use harness::files;
use harness::folder::Folder;
use harness::report::{equal, Outcome, Report};

/// Runs that are trouble, with what is told.
const MISUSES: &[(&[&str], &str)] = &[
    (&["examples/A.sheet"], "this claim has 1; try --along"),
    (&["examples/eight-masked.sheet"], "this claim has 8; try --along"),
    (&["examples/G.sheet", "--along", "2"], "the variables of this claim are 0 to 1, found 2"),
    (&["examples/G.sheet", "--along", "x"], "--along: expected a whole number"),
    (&["examples/G.sheet", "--along", "0", "--at", "1"], "--at: expected 2 offsets"),
    (&["examples/G.sheet", "--along", "0", "--at", "1,x"], "--at: expected 2 offsets"),
    (&["examples/G.sheet", "--along", "0", "--from", "11"], "--from is 11, which is over --to, 10"),
    (&["examples/G.sheet", "--to", "3"], "--to goes with --along"),
    (&["examples/G.sheet", "examples/G.sheet", "--along", "0"], "without its proof"),
    (&["examples/none.sheet"], "No such file"),
];

pub fn run(report: &mut Report) {
    for name in files::examples(&[".sheet"]) {
        report.add(&format!("pictures of {name}"), are_drawn(&name));
    }
    for (arguments, words) in MISUSES {
        let name = format!("burmelox picture {}", arguments.join(" "));
        report.add(&name, is_misuse(arguments, words));
    }
    report.add("a picture without a name", is_unnamed());
    report.add("a picture along a variable", is_along());
    report.add("a claim and a proof of their own", are_parted());
    report.add("no picture where printing fails", is_unprinted());
}

/// The picture that a run draws, which is well-formed.
fn drawn(folder: &Folder, arguments: &[&str]) -> Result<String, String> {
    let target = folder.path("picture.svg");
    binary::run(&[&["picture"], arguments, &["-o", &target]].concat()).ends_with(0)?;
    let svg = String::from_utf8(folder.read("picture.svg")).map_err(|error| error.to_string())?;
    let elements = xml::elements(&svg).map_err(|words| format!("{words}\n{svg}"))?;
    equal("the outermost element", &Some("svg"), &elements.first().map(String::as_str))?;
    Ok(svg)
}

fn count(svg: &str, class: &str) -> usize {
    svg.matches(&format!("class=\"{class}\"")).count()
}

/// An example's points and rows, and its values along each variable; of what is refused nothing.
fn are_drawn(name: &str) -> Outcome {
    let folder = Folder::new("drawn");
    let Some((claim, proof)) = sheets(name)? else {
        binary::run(&["picture", name, "-o", &folder.path("picture.svg")]).ends_with(1)?;
        return equal("the files", &Vec::new(), &folder.names());
    };
    if claim.n == 2 {
        let svg = drawn(&folder, &[name])?;
        let lone = proof.rows.iter().filter(|row| row.is_lone()).count();
        equal("the terms", &claim.terms.len(), &count(&svg, "term"))?;
        equal("the pairs", &(proof.rows.len() - lone), &count(&svg, "pair"))?;
        equal("the lone rows", &lone, &count(&svg, "lone"))?;
    }
    (0..claim.n).try_for_each(|variable| {
        let svg = drawn(&folder, &[name, "--along", &variable.to_string()])?;
        equal("the floor", &1, &count(&svg, "floor"))
    })
}

/// The claim and the proof of an example, where the claim passes its own checks.
fn sheets(name: &str) -> Result<Option<(Claim, Proof)>, String> {
    let bytes = files::read(name)?;
    let contents = Contents::of_bytes(name, &bytes, Kind::Both);
    let claim = contents.claim.and_then(|claim| Claim::read(&claim.bytes));
    let proof = contents.proof.and_then(|proof| Proof::read(&proof.bytes));
    Ok(claim.zip(proof))
}

/// Trouble that leaves no file.
fn is_misuse(arguments: &[&str], words: &str) -> Outcome {
    let folder = Folder::new("misuse");
    let target = folder.path("picture.svg");
    binary::run(&[&["picture"], arguments, &["-o", &target]].concat()).is_trouble(words)?;
    equal("the files", &Vec::new(), &folder.names())
}

fn is_unnamed() -> Outcome {
    binary::run(&["picture", "examples/G.sheet"]).is_trouble("name a file for the picture")
}

/// The values of post 9 around (2000, 1), where one is under the floor; and a long range, and one
/// with a gap.
fn is_along() -> Outcome {
    let folder = Folder::new("along");
    let post = ["examples/post-9.sheet", "--along", "0", "--at", "0,1"];
    let svg = drawn(&folder, &[&post[..], &["--from", "1990", "--to", "2010"]].concat())?;
    equal("the lowest", &true, &svg.contains(">lowest of these values: −1, at 2,000<"))?;
    equal("dots of all values, and the red one", &22, &count(&svg, "value"))?;
    let (from, to) = (i32::MIN.to_string(), i32::MAX.to_string());
    drawn(&folder, &[&post[..], &["--from", &from, "--to", &to]].concat())?;
    let svg = drawn(&folder, &["examples/J.sheet", "--along", "0"])?;
    equal("no value is given past 2", &2, &count(&svg, "gap"))
}

/// Texts of their own, without a proof, and with one of another number of variables.
fn are_parted() -> Outcome {
    let folder = Folder::new("parted");
    let claim =
        folder.write("claim", "claim\nvariables 2\nfloor 0\nterm coefficient 1 exponents 2 0\n");
    let proof = folder.write("proof", "proof\nvariables 2\nscale 1\nrow lone v 2 0 p 1\n");
    let other = folder.write("other", "proof\nvariables 1\nscale 1\n");
    equal("no ring", &0, &count(&drawn(&folder, &[&claim])?, "lone"))?;
    equal("a ring", &1, &count(&drawn(&folder, &[&claim, &proof])?, "lone"))?;
    is_misuse(&[&claim, &other], "the claim has two variables, and the proof has 1")
}

fn is_unprinted() -> Outcome {
    let folder = Folder::new("undrawn");
    let target = folder.path("picture.svg");
    let arguments = ["picture", "examples/G.sheet", "-o", &target];
    binary::run_redirected(&arguments, ">&-").is_trouble("closed")?;
    binary::run_redirected(&arguments, ">/dev/full").is_trouble("No space")?;
    equal("the files", &Vec::new(), &folder.names())
}
