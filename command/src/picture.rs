//! `burmelox picture`: a claim in two variables with its proof, or a claim along one variable.

use crate::arguments::{Arguments, Opt, Subcommand};
use crate::axis::exact;
use crate::curve_picture::{self, Sample};
use crate::fault::Blamed;
use crate::files::{Inputs, Staged};
use crate::held::{self, Contents};
use crate::points_picture;
use crate::report::Report;
use crate::rules::Refusal;
use crate::sheet::{Claim, Proof};
use crate::status::{trouble, Ending, Status, Trouble};
use crate::telling::tell_refusal;
use burmelox::Profile;

pub const SUBCOMMAND: Subcommand = Subcommand {
    name: "picture",
    operands: "CLAIM [PROOF]",
    count: 1..=2,
    summary: "Draws the points of a claim and the rows between them, or its values.",
    about: "\
Of a claim in two variables: its points with their coefficients, a pair of the
proof as a line with its midpoint marked, a lone row as a ring. Without PROOF
the rows are those behind the claim in the same file, where there are some.
With --along, of any claim: its values along one variable against the floor,
the others fixed, as the library evaluates them. A picture is no verdict.
",
    options: &[
        Opt::new("-o", "FILE", "the picture, an SVG; it has to be named"),
        Opt::new("--along", "I", "draw the values along variable I, counted from 0"),
        Opt::new("--at", "X0,X1,..", "an offset for each variable; that of I is not used"),
        Opt::new("--from", "A", "the first offset; without it -10, or 0 where I is masked"),
        Opt::new("--to", "B", "the last offset; without it 10"),
    ],
    run,
};

/// How far from 0 offsets are drawn where none are named.
const USUAL: i32 = 10;

/// A curve has so many steps at most, each of one or more offsets.
const MOST_STEPS: i64 = 1000;

fn run(arguments: &Arguments) -> Ending {
    let Some(target) = arguments.value("-o") else {
        return trouble("picture: name a file for the picture, after -o");
    };
    let along = arguments.number("--along")?;
    is_apt(arguments, along.is_some())?;
    let contents = contents(arguments, along.is_some())?;
    let mut report = Report::new(arguments);
    for (name, _, text) in contents.texts() {
        match text {
            Ok(text) => report.text(name, &text),
            Err(refusal) => {
                tell_refusal(&mut report, refusal, Blamed::from(&contents));
                report.print(Vec::new())?;
                return Ok(Status::Refused);
            }
        }
    }
    let svg = match along {
        Some(variable) => values(arguments, &contents, variable)?,
        None => points(&contents)?,
    };
    report.fields().text("verdict", "drawn");
    report.print(vec![Staged::new(target, svg.as_bytes())?])?;
    Ok(Status::Done)
}

/// What is named belongs to the picture that is asked for.
fn is_apt(arguments: &Arguments, is_along: bool) -> Result<(), Trouble> {
    if is_along && arguments.operands.len() > 1 {
        return trouble("picture: --along draws a claim without its proof");
    }
    let unused = ["--at", "--from", "--to"].into_iter().find(|name| arguments.has(name));
    match unused.filter(|_| !is_along) {
        Some(name) => trouble(format!("picture: {name} goes with --along")),
        None => Ok(()),
    }
}

/// The claim; and for its points the proof that is named or stands behind the claim, where one does.
fn contents(arguments: &Arguments, is_along: bool) -> Result<Contents, Trouble> {
    let mut inputs = Inputs::default();
    let (claim, proof) = match arguments.operands.as_slice() {
        [claim, proof] => {
            (held::claim(&mut inputs, claim)?, Some(held::proof(&mut inputs, proof)?))
        }
        [claim] if is_along => (held::claim(&mut inputs, claim)?, None),
        operands => held::claim_and_proof(&mut inputs, &operands[0])?,
    };
    Ok(Contents { claim: Some(claim), proof, limits: None })
}

/// The picture of a claim's points, and of the rows between them.
fn points(contents: &Contents) -> Result<String, Trouble> {
    let claim = claim(contents);
    let proof = contents.proof.as_ref().and_then(|proof| Proof::read(&proof.bytes));
    if claim.n != 2 {
        return trouble(format!(
            "picture: points are drawn of two variables, and this claim has {}; try --along",
            claim.n
        ));
    }
    match proof {
        Some(Proof { n, .. }) if n != 2 => {
            trouble(format!("picture: the claim has two variables, and the proof has {n}"))
        }
        proof => Ok(points_picture::svg(&claim, proof.as_ref())),
    }
}

/// The claim, which the library has a text of.
fn claim(contents: &Contents) -> Claim {
    let claim = contents.claim.as_ref().and_then(|claim| Claim::read(&claim.bytes));
    claim.expect("a claim with a text has all its fields")
}

/// The picture of a claim's values along a variable.
fn values(arguments: &Arguments, contents: &Contents, variable: usize) -> Result<String, Trouble> {
    let claim = claim(contents);
    let n = usize::from(claim.n);
    if variable >= n {
        return trouble(format!(
            "--along: the variables of this claim are 0 to {}, found {variable}",
            n - 1
        ));
    }
    let fixed = fixed(arguments, n)?;
    let samples: Vec<Sample> = offsets(arguments, claim.is_masked(variable))?
        .into_iter()
        .map(|offset| (offset, value(&claim, &fixed, variable, offset)))
        .collect();
    let axis = claim.named(variable);
    Ok(curve_picture::svg(&samples, claim.floor, &axis, &title(&fixed, variable)))
}

/// The offsets of all variables, 0 where none are named.
fn fixed(arguments: &Arguments, n: usize) -> Result<Vec<i32>, Trouble> {
    let Some(value) = arguments.value("--at") else { return Ok(vec![0; n]) };
    let offsets: Result<Vec<i32>, _> = value.split(',').map(str::parse).collect();
    match offsets {
        Ok(offsets) if offsets.len() == n => Ok(offsets),
        _ => {
            trouble(format!("--at: expected {n} offsets with commas between them, found {value:?}"))
        }
    }
}

/// The offsets that are drawn: all from the first to the last, or as many as a curve has.
fn offsets(arguments: &Arguments, is_masked: bool) -> Result<Vec<i32>, Trouble> {
    let from = arguments.number("--from")?.unwrap_or(if is_masked { 0 } else { -USUAL });
    let to = arguments.number("--to")?.unwrap_or(USUAL);
    if from > to {
        return trouble(format!("picture: --from is {from}, which is over --to, {to}"));
    }
    let span = i64::from(to) - i64::from(from);
    let steps = span.clamp(1, MOST_STEPS);
    let offset = |step: i64| (i64::from(from) + span * step / steps) as i32;
    let mut offsets: Vec<i32> = (0..=steps).map(offset).collect();
    offsets.dedup();
    Ok(offsets)
}

/// The value where a variable has an offset and the others are fixed; none where 21 refuses it.
fn value(claim: &Claim, fixed: &[i32], variable: usize, offset: i32) -> Option<i64> {
    let mut offsets = fixed.to_vec();
    offsets[variable] = offset;
    let mut value = 0;
    let answer = burmelox::evaluate(&claim.bytes(), Profile::FULL, &offsets, &mut value);
    Refusal::of(answer).is_none().then_some(value)
}

/// What is drawn: the variable, and where the others are.
fn title(fixed: &[i32], variable: usize) -> String {
    let others = fixed.iter().enumerate().filter(|(other, _)| *other != variable);
    let others = others.map(|(other, offset)| format!(", variable {other} at {}", exact(*offset)));
    format!("Values along variable {variable}{}", others.collect::<String>())
}
