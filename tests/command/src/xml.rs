//! A strict reader of XML, as far as pictures use it: elements with attributes, and text.

/// The names of the elements of a document in their order, if it is well-formed.
pub fn elements(document: &str) -> Result<Vec<String>, String> {
    let mut reader = Reader { rest: document, open: Vec::new(), names: Vec::new() };
    reader.element()?;
    while !reader.open.is_empty() {
        reader.text()?;
        reader.element()?;
    }
    match reader.rest.trim() {
        "" => Ok(reader.names),
        more => Err(format!("there is more after the end: {more}")),
    }
}

struct Reader<'a> {
    rest: &'a str,
    open: Vec<&'a str>,
    names: Vec<String>,
}

impl<'a> Reader<'a> {
    /// Takes what comes before a mark, and the mark.
    fn up_to(&mut self, mark: char) -> Result<&'a str, String> {
        let (taken, rest) =
            self.rest.split_once(mark).ok_or(format!("no {mark} in {:?}", self.rest))?;
        self.rest = rest;
        Ok(taken)
    }

    /// A text between two tags, up to the next one.
    fn text(&mut self) -> Result<(), String> {
        let end = self.rest.find('<').ok_or("an element is open at the end")?;
        is_plain(&self.rest[..end])?;
        self.rest = &self.rest[end..];
        Ok(())
    }

    /// The tag that opens or closes an element.
    fn element(&mut self) -> Result<(), String> {
        self.rest = self.rest.strip_prefix('<').ok_or(format!("no tag: {:?}", self.rest))?;
        let tag = self.up_to('>')?;
        if let Some(name) = tag.strip_prefix('/') {
            let closed = self.open.pop();
            return if closed == Some(name) {
                Ok(())
            } else {
                Err(format!("{name} closes {closed:?}"))
            };
        }
        let (tag, is_empty) = tag.strip_suffix('/').map_or((tag, false), |tag| (tag, true));
        let (name, attributes) = tag.split_once(' ').unwrap_or((tag, ""));
        if name.is_empty() || !name.chars().all(|letter| letter.is_ascii_alphabetic()) {
            return Err(format!("no name of an element: {name:?}"));
        }
        are_attributes(attributes)?;
        self.names.push(name.to_string());
        if !is_empty {
            self.open.push(name);
        }
        Ok(())
    }
}

/// Names with values between quotation marks, none of them twice.
fn are_attributes(text: &str) -> Result<(), String> {
    let mut names = Vec::new();
    let mut rest = text;
    while !rest.is_empty() {
        let (name, after) = rest.split_once("=\"").ok_or(format!("no attribute: {rest:?}"))?;
        let (value, after) = after.split_once('"').ok_or(format!("no value: {after:?}"))?;
        if name.is_empty() || name.contains(' ') || names.contains(&name) {
            return Err(format!("no name of an attribute: {name:?}"));
        }
        is_plain(value)?;
        names.push(name);
        rest = after.strip_prefix(' ').unwrap_or(after);
    }
    Ok(())
}

/// A text with no mark of its own, and with each & that of a known character.
fn is_plain(text: &str) -> Result<(), String> {
    let known = ["&amp;", "&lt;", "&gt;", "&quot;"];
    let mut parts = text.match_indices('&');
    let is_known = parts.all(|(place, _)| known.iter().any(|name| text[place..].starts_with(name)));
    if is_known && !text.contains('<') {
        return Ok(());
    }
    Err(format!("a mark in a text: {text:?}"))
}
