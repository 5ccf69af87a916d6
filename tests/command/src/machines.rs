//! What `--json` prints: one object a line, with the same facts as the lines for people.

use crate::binary::{self, Run};
use crate::json::{self, Value};
use harness::files;
use harness::folder::Folder;
use harness::report::{equal, Outcome, Report};

pub fn run(report: &mut Report) {
    report.add("check --json", is_checked());
    report.add("check --json of a refusal", is_refused());
    report.add("search --json", is_searched());
    report.add("evaluate --json", is_evaluated());
    report.add("encode --json and decode --json", are_coded());
    report.add("explain --json", is_explained());
    report.add("picture --json", is_drawn());
    report.add("batch --json", is_batched());
}

/// The object that a run prints, and its status.
fn object(arguments: &[&str], status: i32) -> Result<Value, String> {
    let run = binary::run(&[arguments, &["--json"]].concat());
    run.ends_with(status)?;
    read(&run)
}

fn read(run: &Run) -> Result<Value, String> {
    json::read(&run.out).map_err(|words| format!("{words}\n{run:?}"))
}

/// The numbers under these names.
fn numbers<const N: usize>(value: &Value, names: [&str; N]) -> [Option<i128>; N] {
    names.map(|name| value.number(name))
}

fn is_checked() -> Outcome {
    let limits = ["--limits", "examples/line-limited.limits", "--profile", "2,25,1"];
    let value = object(&[&["check", "examples/line-limited.sheet"][..], &limits].concat(), 0)?;
    equal("the verdict", &Some("accepted"), &value.text("verdict"))?;
    let found = numbers(&value, ["rows", "scale", "floor"]);
    equal("rows, scale and floor", &[Some(1), Some(10), Some(-5)], &found)?;
    let texts = ["claim", "limits", "profile"].map(|name| value.text(name).unwrap_or_default());
    let lines = binary::run(&[&["check", "examples/line-limited.sheet"][..], &limits].concat());
    let expected = lines.text().replace("accepted rows 1 scale 10 floor -5\n", "");
    equal("the texts", &expected, &texts.concat())
}

fn is_refused() -> Outcome {
    let value = object(&["check", "examples/I.sheet"], 1)?;
    let texts = ["verdict", "sheet", "fault"].map(|name| value.text(name).unwrap_or_default());
    let row = "row 1 pair v 1 2 w 3 2 p 2 q 2 r -4";
    equal("verdict, sheet and fault", &["refused", "proof", row], &texts)?;
    equal("number and index", &[Some(19), Some(1)], &numbers(&value, ["number", "index"]))?;
    let shifted = Value::List([1, 2, -4].map(Value::Number).to_vec());
    equal("the shifted weights", &Some(&shifted), &value.get("shifted"))?;
    let advice = "shifted p 1 q 2 r -4: 4pq = 8 < r² = 16; \
                  a larger scale leaves less rounding: try 1000";
    equal("the advice", &Some(advice), &value.text("advice"))
}

fn is_searched() -> Outcome {
    let value = object(&["search", "examples/G.sheet", "--from", "-9", "--to", "9"], 0)?;
    equal("the verdict", &Some("found"), &value.text("verdict"))?;
    let found = numbers(&value, ["floor", "tried", "rows"]);
    equal("floor, tried and rows", &[Some(0), Some(10), Some(3)], &found)?;
    let value = object(&["search", "examples/G.sheet", "--from", "1", "--to", "9"], 1)?;
    equal("the number", &Some(23), &value.number("number"))?;
    let advice = "with floor 1 a check says: refused 19 at 0";
    equal("the advice", &Some(advice), &value.text("advice"))
}

fn is_evaluated() -> Outcome {
    let value = object(&["evaluate", "examples/G.sheet", "1", "-2"], 0)?;
    equal("the verdict", &Some("evaluated"), &value.text("verdict"))?;
    equal("the value", &Some(9), &value.number("value"))?;
    let value = object(&["evaluate", "examples/J.sheet", "3"], 1)?;
    equal("number and index", &[Some(21), Some(0)], &numbers(&value, ["number", "index"]))
}

fn are_coded() -> Outcome {
    let folder = Folder::new("hex");
    let decoded = object(&["decode", "examples/G.sheet"], 0)?;
    let text = ["claim", "proof"].map(|name| decoded.text(name).unwrap_or_default()).concat();
    let file = folder.write("text", text);
    let encoded = object(&["encode", &file], 0)?;
    let bytes = files::read("examples/G.sheet")?;
    let hex: String = bytes.iter().map(|byte| format!("{byte:02x}")).collect();
    equal("the sheet", &Some(hex.as_str()), &encoded.text("sheet"))?;
    let refused = object(&["decode", "examples/B-masked-past.sheet"], 1)?;
    equal("the verdict", &Some("refused"), &refused.text("verdict"))?;
    let why = "refused 2 at 0: n, t, a mask bit at or above n, or byte 3";
    equal("why it is no claim", &Some(why), &refused.text("as_claim"))
}

fn is_explained() -> Outcome {
    let value = object(&["explain", "0x200130007"], 0)?;
    equal("number and index", &[Some(19), Some(7)], &numbers(&value, ["number", "index"]))?;
    equal("the sheet", &Some("proof"), &value.text("sheet"))
}

fn is_drawn() -> Outcome {
    let folder = Folder::new("json");
    let value = object(&["picture", "examples/G.sheet", "-o", &folder.path("picture.svg")], 0)?;
    equal("the verdict", &Some("drawn"), &value.text("verdict"))?;
    let texts = ["claim", "proof"].map(|name| value.text(name).unwrap_or_default()).concat();
    equal("the texts", &binary::run(&["decode", "examples/G.sheet"]).text(), &texts)
}

/// Also with file names that JSON has to escape.
fn is_batched() -> Outcome {
    let folder = Folder::new("lines");
    let lines = ["examples/G.sheet", "examples/D.sheet", "a \"b\"\\\u{e4}\u{1}"];
    let list = folder.write("list", lines.join("\n"));
    let run = binary::run(&["batch", &list, "--json"]);
    run.ends_with(2)?;
    let values = run.out.split_inclusive(|&byte| byte == b'\n').map(json::read);
    let values: Vec<Value> = values.collect::<Result<_, String>>()?;
    let listed: Vec<Option<&str>> = values.iter().map(|value| value.text("list")).collect();
    equal("the list's lines", &lines.map(Some).to_vec(), &listed)?;
    let verdicts: Vec<Option<&str>> = values.iter().map(|value| value.text("verdict")).collect();
    let expected = ["accepted", "refused", "trouble"].map(Some).to_vec();
    equal("the verdicts", &expected, &verdicts)
}
