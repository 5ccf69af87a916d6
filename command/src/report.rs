//! What a run prints: lines for people, or with `--json` one object for machines.

use crate::arguments::Arguments;
use crate::files::Staged;
use crate::json::Object;
use crate::output;
use crate::status::Trouble;

/// The lines and the object of a run, told together.
pub struct Report {
    is_json: bool,
    lines: String,
    object: Object,
}

impl Report {
    pub fn new(arguments: &Arguments) -> Report {
        let is_json = arguments.has("--json");
        Report { is_json, lines: String::new(), object: Object::default() }
    }

    /// A text of whole lines.
    pub fn text(&mut self, name: &str, text: &str) {
        self.lines.push_str(text);
        self.object.text(name, text);
    }

    /// A line of words with a label.
    pub fn note(&mut self, name: &str, label: &str, words: &str) {
        self.line(&format!("{label}: {words}"));
        self.object.text(name, words);
    }

    /// A line for people alone; machines are told its parts.
    pub fn line(&mut self, line: &str) {
        self.lines.push_str(line);
        self.lines.push('\n');
    }

    /// The fields for machines alone.
    pub fn fields(&mut self) -> &mut Object {
        &mut self.object
    }

    pub fn is_json(&self) -> bool {
        self.is_json
    }

    /// What is printed.
    fn written(&self) -> String {
        if self.is_json {
            self.object.finish() + "\n"
        } else {
            self.lines.clone()
        }
    }

    /// Prints all, and gives the files their names once that is done.
    pub fn print(&self, files: Vec<Staged>) -> Result<(), Trouble> {
        output::print(self.written().as_bytes())?;
        files.into_iter().try_for_each(Staged::place)
    }

    /// Prints lines to standard error, where standard output is for a sheet or its text.
    pub fn print_aside(&self) -> Result<(), Trouble> {
        if self.is_json {
            return self.print(Vec::new());
        }
        output::complain(&self.lines);
        Ok(())
    }

    /// Writes a sheet or its text to a file, or to standard output, where machines are told of it
    /// instead.
    pub fn hand_out(&self, target: Option<&str>, product: &[u8]) -> Result<(), Trouble> {
        let file = target.map(|name| Staged::new(name, product)).transpose()?;
        if self.is_json {
            output::print(self.written().as_bytes())?;
        } else if target.is_none() {
            output::print(product)?;
        }
        file.map_or(Ok(()), Staged::place)
    }
}
