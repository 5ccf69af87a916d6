//! A writer of JSON.

use std::fmt::{Display, Write};

/// An object, written field by field.
#[derive(Default)]
pub struct Object(String);

impl Object {
    pub fn text(&mut self, name: &str, value: &str) {
        self.field(name, quoted(value));
    }

    pub fn number(&mut self, name: &str, value: impl Display) {
        self.field(name, value);
    }

    pub fn list(&mut self, name: &str, values: impl IntoIterator<Item = impl Display>) {
        let values: Vec<String> = values.into_iter().map(|value| value.to_string()).collect();
        self.field(name, format!("[{}]", values.join(",")));
    }

    fn field(&mut self, name: &str, value: impl Display) {
        let comma = if self.0.is_empty() { "" } else { "," };
        let written = write!(self.0, "{comma}{}:{value}", quoted(name));
        written.expect("a string takes all that is written");
    }

    /// The object up to its closing brace.
    pub fn unfinished(&self) -> String {
        format!("{{{}", self.0)
    }

    /// The whole object.
    pub fn finish(&self) -> String {
        self.unfinished() + "}"
    }
}

/// A text between quotation marks.
pub fn quoted(text: &str) -> String {
    let mut quoted = String::from('"');
    for character in text.chars() {
        match character {
            '"' => quoted.push_str("\\\""),
            '\\' => quoted.push_str("\\\\"),
            '\n' => quoted.push_str("\\n"),
            '\t' => quoted.push_str("\\t"),
            control if control < ' ' => quoted.push_str(&format!("\\u{:04x}", control as u32)),
            plain => quoted.push(plain),
        }
    }
    quoted.push('"');
    quoted
}
