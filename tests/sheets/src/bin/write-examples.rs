//! Writes the project's `examples/`: each sheet and its own text, beside it the text the program
//! prints for it, of those with limits the limits sheet, its text and the text of a check with them,
//! and of some the page.

use sheets::{limited, pages, texts, Example};
use std::path::{Path, PathBuf};
use std::{fs, io};

fn main() -> io::Result<()> {
    for example in sheets::examples() {
        write(&example)?;
    }
    for limited in limited::examples() {
        write(&limited.example)?;
        fs::write(path(limited.example.name, "limits"), limited.limits.bytes())?;
        write_text(&limited.example, "limits.txt", texts::of_limits(&limited))?;
    }
    for paged in pages::examples() {
        fs::write(path(paged.example.name, "page"), paged.page)?;
    }
    Ok(())
}

fn write(example: &Example) -> io::Result<()> {
    fs::write(path(example.name, "sheet"), example.input())?;
    write_text(example, "sheet.txt", texts::of_sheet(example))?;
    fs::write(path(example.name, "txt"), example.text)
}

/// Writes the text of a sheet, where it has one.
fn write_text(example: &Example, extension: &str, text: Option<String>) -> io::Result<()> {
    text.map_or(Ok(()), |text| fs::write(path(example.name, extension), text))
}

fn path(name: &str, extension: &str) -> PathBuf {
    let folder = Path::new(env!("CARGO_MANIFEST_DIR")).join("../../examples");
    folder.join(name).with_extension(extension)
}
