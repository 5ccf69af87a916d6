//! What the documents say of the project: their tables of refusals, held against the one that the
//! tests share, the header's greatest values and lengths of texts, and the files and names that they
//! send a reader to.

use crate::answers;
use harness::files;
use harness::report::{equal, Outcome, Report};
use refusals::RULES;
use sheets::listings::{longest, Longest};
use sheets::random::Rng;

pub fn run(report: &mut Report) {
    report.add("refusals in the format's document", are_in_format());
    report.add("refusals in the C header", are_in_header());
    report.add("sheets in the C header", are_sheets_in_header());
    report.add("greatest values in the C header", are_greatest_values_in_header());
    for longest in longest() {
        report.add(&format!("room for a {:?}", longest.entry_point), is_room_told(&longest));
    }
    for document in ["README.md", "docs/FORMAT.md"] {
        report.add(&format!("names in {document}"), are_where_told(document));
    }
}

/// Where the document says "`name` in `file`", the file has that name.
fn are_where_told(document: &str) -> Outcome {
    let text = files::read_text(document)?;
    let parts: Vec<&str> = text.split('`').collect();
    let mut names = 0;
    for told in parts.windows(3) {
        if let [name, " in ", file] = told {
            let words = |c: char| !c.is_alphanumeric() && c != '_';
            if !files::read_text(file)?.split(words).any(|word| word == *name) {
                return Err(format!("{file} has no {name}"));
            }
            names += 1;
        }
    }
    equal("some names are told", &true, &(names > 0))
}

/// The table has a row for every number, with the sheet at fault.
fn are_in_format() -> Outcome {
    let text = files::read_text("docs/FORMAT.md")?;
    let section = text.split("\n## ").find(|section| section.starts_with("Refusals\n"));
    let lines = section.ok_or("docs/FORMAT.md has no heading \"## Refusals\"")?.lines();
    let mut listed: Vec<(u32, String)> = lines.filter_map(table_row).collect();
    let sheet = |rule: &refusals::Rule| format!("{:?}", rule.sheet).to_lowercase();
    let mut expected: Vec<_> = RULES.iter().map(|rule| (rule.number, sheet(rule))).collect();
    listed.sort();
    expected.sort();
    equal("the table", &expected, &listed)
}

/// The number and the sheet in a line `| NUMBER | SHEET |` of a table, whatever follows.
fn table_row(line: &str) -> Option<(u32, String)> {
    let mut cells = line.strip_prefix('|')?.split('|').map(str::trim);
    Some((cells.next()?.parse().ok()?, cells.next()?.to_string()))
}

/// The longest enum has an entry for every number, in the order of numbers.
fn are_in_header() -> Outcome {
    let text = files::read_text("include/burmelox.h")?;
    let entries = |part: &str| part.lines().filter_map(enum_entry).collect::<Vec<u32>>();
    let listed = text.split("enum").map(entries).max_by_key(Vec::len).unwrap_or_default();
    let mut expected: Vec<u32> = RULES.iter().map(|rule| rule.number).collect();
    expected.sort();
    equal("the enum", &expected, &listed)
}

/// The number in a line `BURMELOX_NAME = NUMBER` of an enum, whatever follows.
fn enum_entry(line: &str) -> Option<u32> {
    let (_, number) = line.trim().strip_prefix("BURMELOX_")?.split_once(" = ")?;
    number.split(|c: char| !c.is_ascii_digit()).next()?.parse().ok()
}

/// The header has the number of each sheet that a refusal blames.
fn are_sheets_in_header() -> Outcome {
    let header = files::read_text("include/burmelox.h")?;
    let entries: Vec<&str> = header.lines().map(|line| line.trim().trim_end_matches(',')).collect();
    RULES.iter().try_for_each(|rule| {
        let sheet = format!("{:?}", rule.sheet).to_uppercase();
        let entry = format!("BURMELOX_{sheet} = {}", rule.sheet as u32);
        equal(&entry, &true, &entries.contains(&&entry[..]))
    })
}

/// The header has each greatest value that the crate `bounds` has, under the same name.
fn are_greatest_values_in_header() -> Outcome {
    let header = files::read_text("include/burmelox.h")?;
    let bounds = files::read_text("crates/bounds/src/bounds.rt")?;
    let values = bounds.lines().filter_map(|line| {
        let (name, value) = line.strip_prefix("pub const ")?.split_once(": ")?;
        let (_, value) = value.trim_end_matches(';').split_once(" = ")?;
        Some(format!("#define BURMELOX_{name} {value}"))
    });
    let values: Vec<String> = values.collect();
    let in_header = |value: &&String| header.lines().any(|line| line == *value);
    equal("the lines", &values, &values.iter().filter(in_header).cloned().collect())?;
    equal("there are greatest values", &true, &!values.is_empty())
}

/// The header and a row of the format's document have the length of a buffer for every text of the
/// kind.
fn is_room_told(longest: &Longest) -> Outcome {
    let Longest { entry_point, case, .. } = longest;
    let text = answers::listing(*entry_point, case, &mut Rng::new(0))?;
    let room = room_for(&text.map_err(|refusal| refusal.to_string())?);
    let kind = format!("{entry_point:?}").replace("Text", "").to_uppercase();
    let name = format!("BURMELOX_MOST_{kind}_TEXT");
    let line = format!("#define {name} {room}");
    let header = files::read_text("include/burmelox.h")?;
    equal(&line, &true, &header.lines().any(|other| other == line))?;
    let cells = format!("| {room} | `{name}` |");
    let is_told = |row: &str| row.replace(',', "").ends_with(&cells);
    equal(&cells, &true, &files::read_text("docs/FORMAT.md")?.lines().any(is_told))
}

/// The length of a text in which each term or row is counted with an index as long as the last one.
fn room_for(text: &str) -> usize {
    let last = text.lines().next_back().unwrap_or_default();
    let word = last.split(' ').next();
    let length = |line: &str| if line.split(' ').next() == word { last.len() } else { line.len() };
    text.lines().map(|line| length(line) + 1).sum()
}
