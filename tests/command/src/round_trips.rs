//! Decoding and encoding again gives the same bytes, and what is decoded is the library's text.

use crate::binary;
use burmelox_command::encode;
use burmelox_command::held::{Contents, Kind};
use burmelox_command::sheet::{Claim, Limit, Limits, Proof};
use harness::files;
use harness::report::{equal, Outcome, Report};
use sheets::random::{Kind as CaseKind, Rng};
use sheets::Case;
use std::fmt::Display;

/// So many random sheets go there and back.
const SHEETS: usize = 100_000;

pub fn run(report: &mut Report) {
    for name in files::examples(&[".sheet", ".limits"]) {
        report.add(&format!("round trip of {name}"), of_example(&name));
        report.add(&format!("text of {name}"), of_example_text(&name));
    }
    report.add(&format!("round trips of {SHEETS} random sheets"), of_random_sheets());
}

/// An example that passes its own checks is printed as the library does, and comes back from that
/// text; one that does not is refused.
fn of_example(name: &str) -> Outcome {
    let bytes = files::read(name)?;
    let kind = if name.ends_with(".limits") { Kind::Limits } else { Kind::Both };
    let decoded = binary::run(&["decode", name, "--as", kind.name()]);
    let Some(text) = library_text(&bytes, kind) else { return decoded.ends_with(1) };
    decoded.ends_with(0)?;
    equal("the text", &text, &decoded.text())?;
    let encoded = binary::run_with(&["encode", "-"], &decoded.out);
    encoded.ends_with(0)?;
    equal("the sheet", &bytes, &encoded.out)
}

/// The text beside an example is encoded as its bytes; where it has none it is refused.
fn of_example_text(name: &str) -> Outcome {
    let text = format!("{name}.txt");
    if !files::path(&text).exists() {
        return binary::run(&["decode", name]).ends_with(1);
    }
    let encoded = binary::run(&["encode", &text]);
    encoded.ends_with(0)?;
    equal("the sheet", &files::read(name)?, &encoded.out)
}

/// The library's texts of the sheets in a file, by a buffer of its own.
fn library_text(bytes: &[u8], kind: Kind) -> Option<String> {
    let (claim, proof) = match kind {
        Kind::Both => {
            bytes.split_at_checked(8 + usize::from(bytes[1]) * (usize::from(bytes[0]) + 4))?
        }
        _ => (bytes, bytes),
    };
    let text = |write: fn(&[u8], &mut [u8]) -> u64, sheet: &[u8]| {
        let mut buffer = vec![0; 40_000];
        let length = write(sheet, &mut buffer);
        let text = buffer.get(..usize::try_from(length).ok()?)?;
        String::from_utf8(text.to_vec()).ok()
    };
    match kind {
        Kind::Claim => text(burmelox::claim_text, bytes),
        Kind::Proof => text(burmelox::proof_text, bytes),
        Kind::Limits => text(burmelox::limits_text, bytes),
        Kind::Both => {
            Some(text(burmelox::claim_text, claim)? + &text(burmelox::proof_text, proof)?)
        }
    }
}

/// Sheets of random cases of every kind, as long as they pass their own checks.
fn of_random_sheets() -> Outcome {
    let mut rng = Rng::new(1);
    let kinds = CaseKind::all();
    let mut passed = 0;
    for case in 0.. {
        let Case { claim, proof, limits, .. } = kinds[case % kinds.len()].case(&mut rng);
        let both = [&claim[..], &proof].concat();
        for (bytes, kind) in [
            (&claim, Kind::Claim),
            (&proof, Kind::Proof),
            (&limits, Kind::Limits),
            (&both, Kind::Both),
        ] {
            passed += usize::from(goes_there_and_back(bytes, kind)?);
        }
        if passed >= SHEETS {
            break;
        }
    }
    Ok(())
}

/// The bytes come back from their text, where they have one.
fn goes_there_and_back(bytes: &[u8], kind: Kind) -> Result<bool, String> {
    let contents = Contents::of_bytes("", bytes, kind);
    let texts = contents.texts().into_iter().map(|(_, _, text)| text);
    let Ok(text) = texts.collect::<Result<String, _>>() else { return Ok(false) };
    let read = Contents::of_text("", text.as_bytes()).map_err(|trouble| format!("{trouble:?}"))?;
    let back = encode::bytes(&read).map_err(|refusal| format!("{refusal}\n{text}"))?;
    equal("the sheet", &bytes.to_vec(), &back)?;
    are_worded(bytes, kind, &text)?;
    Ok(true)
}

/// The command's own words for terms, rows and limits, by which refusals name them, are those of
/// the library's text.
fn are_worded(bytes: &[u8], kind: Kind, text: &str) -> Outcome {
    let worded: Option<Vec<String>> = match kind {
        Kind::Claim => Claim::read(bytes).map(|claim| numbered("term", &claim.terms)),
        Kind::Proof => Proof::read(bytes).map(|proof| numbered("row", &proof.rows)),
        Kind::Limits => Limits::read(bytes).map(|limits| limited(&limits)),
        Kind::Both => return Ok(()),
    };
    let entries = ["term ", "row ", "variable "];
    let is_entry = |line: &&str| entries.iter().any(|entry| line.starts_with(entry));
    let lines = text.lines().filter(is_entry).map(str::to_string).collect();
    equal("the words", &Some(lines), &worded)
}

fn numbered(name: &str, entries: &[impl Display]) -> Vec<String> {
    let entries = entries.iter().enumerate();
    entries.map(|(index, entry)| format!("{name} {index} {entry}")).collect()
}

/// The limits of limited variables alone.
fn limited(limits: &Limits) -> Vec<String> {
    let unlimited = Limit::default().to_string();
    let all = numbered("variable", &limits.entries);
    all.into_iter().filter(|words| !words.ends_with(&unlimited)).collect()
}
