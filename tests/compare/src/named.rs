//! Tests of single sheets: the examples, the table of refusals, masks, searches, the program's
//! input, C.

use crate::{answers, program};
use harness::files;
use harness::report::{equal, Outcome, Report};
use oracle::{Refusal, Verdict};
use refusals::{EntryPoint, TEXTS};
use sheets::limited::{self, LimitedExample};
use sheets::random::Rng;
use sheets::searches::{searches, Found, Search};
use sheets::worked::{power_claim, square_input, SQUARE_CUTS};
use sheets::{table, texts, Case, Claim, Example, Profile, Proof, Row};
use std::fs::File;
use std::process::{Command, Stdio};
use std::{env, fs, process};

/// The programs in `tests/c` and what they print.
const C_PROGRAMS: [(&str, &str); 2] = [
    ("example", "accepted rows 1\nvalue 16\nfloor 0, tried 4\n"),
    (
        "edges",
        "no claim: refused 1 at 0, sheet 1\n\
         no proof: refused 8 at 0, sheet 2\n\
         no limits: refused 24 at 0, sheet 6\n\
         third power: refused 25 at 0, sheet 6\n\
         no output: refused 11 at 0, sheet 3\n\
         too many rows: refused 27 at 0, sheet 8\n\
         first byte of the output 0\n\
         no row: 0\n\
         no row in the least profile: 0\n\
         first byte of the output 1\n\
         minus square within 3: 0\n\
         no page: refused 26 at 0, sheet 7\n\
         too many rows for a page: refused 27 at 0, sheet 8\n\
         refused 27 at 0                                                         \n\
         no claim for a page: refused 1 at 0, sheet 1\n\
         refused 1 at 0                                                          \n\
         a page: 0\n\
         accepted rows 0 scale 1 floor 0                                         \n\
         too many rows to evaluate: refused 27 at 0, sheet 8\n\
         no claim to evaluate: refused 1 at 0, sheet 1\n\
         no offsets: refused 20 at 0, sheet 4\n\
         value 7\n\
         no claim to search: refused 1 at 0, sheet 1\n\
         no proof to search: refused 8 at 0, sheet 2\n\
         no limits to search: refused 24 at 0, sheet 6\n\
         no output to search: refused 11 at 0, sheet 3\n\
         too many rows to search: refused 27 at 0, sheet 8\n\
         lo over hi: refused 22 at 0, sheet 5\n\
         one floor too many: refused 22 at 0, sheet 5\n\
         all numbers: refused 22 at 0, sheet 5\n\
         no floor: refused 23 at 0, sheet 5\n\
         floor 8, tried 9\n\
         last floor: 0\n\
         floor 0, tried 4096\n\
         no claim as text: refused 1 at 0, sheet 1\n\
         no proof as text: refused 8 at 0, sheet 2\n\
         no limits as text: refused 24 at 0, sheet 6\n\
         too many rows as text: refused 27 at 0, sheet 8\n\
         no buffer for a claim: refused 30 at 0, sheet 9\n\
         no buffer for a proof: refused 30 at 0, sheet 9\n\
         no buffer for limits: refused 30 at 0, sheet 9\n\
         no buffer for a profile: refused 30 at 0, sheet 9\n\
         one byte too few: refused 30 at 0, sheet 9\n\
         first byte of the text 0\n\
         claim: 33\n\
         claim\nvariables 1\nmask 0\nfloor 0\n\
         byte after the text 0\n\
         proof: 26\n\
         proof\nvariables 1\nscale 1\n\
         limits: 59\n\
         limits\nvariables 1\nvariable 0 power 2 limit 3 multiplier 1\n\
         profile: 48\n\
         profile\nexponent 120\nweight 1073741824\nrows 256\n\
         greatest lengths 776, 7176 and 57\n\
         greatest lengths of texts 4781, 31520, 395 and 48\n\
         page of 40 lines of 72 characters, 2920 bytes\n\
         last row: refused 19 at 255, sheet 2\n\
         most rows: 256\n",
    ),
];

pub fn run(report: &mut Report) {
    let examples = sheets::examples();
    for example in &examples {
        report.add(&format!("example {}", example.name), shows(example));
    }
    let limited = limited::examples();
    for example in &limited {
        report.add(&format!("example {}", example.example.name), shows_limited(example));
    }
    let sheets = examples.iter().chain(limited.iter().map(|limited| &limited.example));
    let texts =
        sheets.filter_map(texts::of_sheet).chain(limited.iter().filter_map(texts::of_limits));
    let (count, texts) = (examples.len() + limited.len(), texts.count());
    report.add("no other examples", are_all("sheet", count));
    report.add("no other examples with limits", are_all("limits", limited.len()));
    report.add("no other texts beside the examples", are_all("txt", count + texts));
    for entry in table::entries() {
        report.add(&format!("table {}", entry.number), refuses(&entry));
    }
    for n in 1..=8 {
        report.add(&format!("masks of {n} variables"), are_read(n));
    }
    for search in searches() {
        report.add(&format!("search {}", search.name), comes_to_its_outcome(&search));
    }
    report.add("evaluation J", reaches_2_to_56());
    for (length, text) in SQUARE_CUTS {
        report.add(&format!("input of {length} bytes"), prints(&square_input()[..length], text));
    }
    report.add("input in pieces", reads_pieces());
    report.add("input past 8,192 bytes", leaves_the_rest());
    report.add("input that can't be read", fails("/", Stdio::piped()));
    report.add("text that can't be written", full().and_then(|full| fails("/dev/null", full)));
    for (name, text) in C_PROGRAMS {
        report.add(&format!("{name} in C"), runs_in_c(name, text));
    }
}

/// The files of an example are what the builder makes, the program prints the text beside the
/// sheet, and the library agrees.
fn shows(example: &Example) -> Outcome {
    has_files(example)?;
    equal("the text", &example.text, &&program::print(&example.input())?[..])?;
    checked(&Case::new(&example.claim, &example.proof)).map(|_| ())
}

/// The files of an example with limits are what the builder makes, the library's check with these
/// limits comes to the text beside the sheet, and the program says what it says without them.
fn shows_limited(limited: &LimitedExample) -> Outcome {
    let (example, case) = (&limited.example, limited.case());
    has_files(example)?;
    equal("the limits' file", &case.limits, &file_of(example, "limits")?)?;
    has_text(example, "limits.txt", texts::of_limits(limited))?;
    equal("the text", &example.text, &&oracle::printed(&checked(&case)?)[..])?;
    answers::compare(EntryPoint::Program, &case, &mut Rng::new(0)).map(|_| ())
}

/// The verdict of the library's check, which is the same with a page. The texts are the oracle's too.
fn checked(case: &Case) -> Result<Verdict, String> {
    let mut rng = Rng::new(0);
    for text in TEXTS {
        answers::compare(text, case, &mut rng)?;
    }
    answers::check_page(case, &mut rng)?;
    answers::check(case, &mut rng)
}

/// The sheet and the text among the files are the example's.
fn has_files(example: &Example) -> Outcome {
    equal("the sheet's file", &example.input(), &file_of(example, "sheet")?)?;
    has_text(example, "sheet.txt", texts::of_sheet(example))?;
    equal("the text's file", &example.text.as_bytes(), &&file_of(example, "txt")?[..])
}

/// The text of a sheet among the files is the one that there is, or there is none.
fn has_text(example: &Example, extension: &str, text: Option<String>) -> Outcome {
    let file = file_of(example, extension).ok();
    equal("the text of a sheet", &text.map(String::into_bytes), &file)
}

pub fn file_of(example: &Example, extension: &str) -> Result<Vec<u8>, String> {
    files::read(&format!("examples/{}.{extension}", example.name))
}

/// There are as many files of the kind as examples.
pub fn are_all(extension: &str, examples: usize) -> Outcome {
    let files = fs::read_dir(files::path("examples")).map_err(|error| error.to_string())?;
    let paths = files.filter_map(|file| file.ok()).map(|file| file.path());
    let alike = paths.filter(|path| path.extension().is_some_and(|end| end == extension));
    equal("the number of files", &examples, &alike.count())
}

/// The table's example is refused by its number at its index: by the library, and by the program
/// where it can be shown to it.
fn refuses(entry: &table::Entry) -> Outcome {
    let expected = Some(Refusal { number: entry.number, index: entry.index });
    entry.entry_points().try_for_each(|entry_point| {
        let refusal = answers::compare(entry_point, &entry.case, &mut Rng::new(0))?;
        equal(&format!("{entry_point:?}"), &expected, &refusal)
    })
}

/// Every mask, with every set of odd exponents in a claim of one term and one lone row: it is
/// accepted where the mask has all of them and nothing past the variables.
fn are_read(n: u8) -> Outcome {
    let (mut rng, all) = (Rng::new(0), u8::MAX >> (8 - n));
    for odd in 0..=all {
        let point: Vec<u8> = (0..n).map(|variable| 2 + (odd >> variable & 1)).collect();
        let row = Row { v: point.clone(), w: point.clone(), weights: [1, 0, 0] };
        let proof = Proof { n, scale: 1, rows: vec![row] };
        for mask in 0..=255 {
            let claim = Claim { n, mask, floor: 0, terms: vec![(point.clone(), 1)] };
            let verdict = answers::check(&Case::new(&claim, &proof), &mut rng)?;
            let expected = if mask > all {
                Some(2)
            } else if odd & !mask != 0 {
                Some(18)
            } else {
                None
            };
            let number = verdict.err().map(|refusal| refusal.number);
            equal(&format!("odd {odd:b}, mask {mask:b}"), &expected, &number)?;
        }
    }
    Ok(())
}

/// The library and the oracle come to the outcome of a named search.
fn comes_to_its_outcome(search: &Search) -> Outcome {
    let outcome = answers::search(&search.case, &mut Rng::new(0))?.map(|found| Found {
        floor: found.accepted.floor.into(),
        tried: found.tried,
        exact: found.accepted.bytes,
    });
    let expected = search.outcome.clone();
    equal("the outcome", &expected.map_err(|number| Refusal { number, index: 0 }), &outcome)
}

fn reaches_2_to_56() -> Outcome {
    let mut value = 0;
    let answer = burmelox::evaluate(&power_claim(56).bytes(), Profile::FULL, &[2], &mut value);
    equal("the answer and the value", &(0, 1 << 56), &(answer, value))
}

/// The oracle and the program print the text.
fn prints(input: &[u8], text: &str) -> Outcome {
    equal("the oracle's text", &text, &&oracle::text(input)[..])?;
    equal("the program's text", &text, &&program::print(input)?[..])
}

fn reads_pieces() -> Outcome {
    let input = square_input();
    let pieces = [&input[..3], &input[3..20], &input[20..40], &input[40..]];
    equal("the text", &oracle::text(&input), &program::print_pieces(&pieces)?)
}

/// Bytes past the limit are neither waited for nor answered to, however many.
fn leaves_the_rest() -> Outcome {
    let mut input = square_input();
    for length in [8191, 8192, 8193, 100_000] {
        input.resize(length, 0);
        equal("the text", &"refused 10 at 0\n", &&program::print(&input)?[..])?;
    }
    Ok(())
}

/// Where its input can't be read or its text can't be written the program prints nothing, says why
/// and ends with status 1.
fn fails(input: &str, output: impl Into<Stdio>) -> Outcome {
    let input = File::open(input).map_err(|error| format!("{input}: {error}"))?;
    let end = program::end(input, output)?;
    equal("the status", &Some(1), &end.status.code())?;
    equal("the text", &"", &&String::from_utf8_lossy(&end.stdout)[..])?;
    equal("standard error says why", &true, &end.stderr.starts_with(b"Error: "))
}

/// A file that takes no byte.
fn full() -> Result<File, String> {
    File::options().write(true).open("/dev/full").map_err(|error| format!("/dev/full: {error}"))
}

/// A program in C compiles with the header, links the library and prints the text.
fn runs_in_c(name: &str, text: &str) -> Outcome {
    let binary = env::temp_dir().join(format!("burmelox-{name}-{}", process::id()));
    let mut compiler = Command::new("cc");
    compiler.args(["-std=c99", "-pedantic", "-Wall", "-Wextra", "-Werror"]);
    compiler.arg("-I").arg(files::path("include"));
    compiler.arg(files::path(&format!("tests/c/{name}.c"))).arg(burmelox::ARCHIVE);
    let compiled = compiler.arg("-o").arg(&binary).status();
    let compiled = compiled.map_err(|error| format!("cc: {error}"))?;
    equal("cc ends well", &true, &compiled.success())?;
    let output = Command::new(&binary).output().map_err(|error| format!("running it: {error}"));
    fs::remove_file(&binary).map_err(|error| format!("{}: {error}", binary.display()))?;
    let printed = String::from_utf8_lossy(&output?.stdout).into_owned();
    equal("the text", &text, &&printed[..])
}
