//! A strict reader of JSON, as far as the command writes it.

use std::collections::BTreeMap;

#[derive(Clone, Debug, PartialEq, Eq)]
pub enum Value {
    Object(BTreeMap<String, Value>),
    List(Vec<Value>),
    Text(String),
    Number(i128),
}

impl Value {
    /// The field of an object.
    pub fn get(&self, name: &str) -> Option<&Value> {
        match self {
            Value::Object(fields) => fields.get(name),
            _ => None,
        }
    }

    pub fn text(&self, name: &str) -> Option<&str> {
        match self.get(name) {
            Some(Value::Text(text)) => Some(text),
            _ => None,
        }
    }

    pub fn number(&self, name: &str) -> Option<i128> {
        match self.get(name) {
            Some(Value::Number(number)) => Some(*number),
            _ => None,
        }
    }
}

/// The value that the text is, with nothing before it and one line feed after it.
pub fn read(text: &[u8]) -> Result<Value, String> {
    let text = std::str::from_utf8(text).map_err(|error| error.to_string())?;
    let mut reader = Reader(text.strip_suffix('\n').ok_or("no line feed at the end")?);
    let value = reader.value()?;
    reader.0.is_empty().then_some(value).ok_or(format!("{:?} is left over", reader.0))
}

struct Reader<'a>(&'a str);

impl Reader<'_> {
    fn value(&mut self) -> Result<Value, String> {
        match self.0.chars().next() {
            Some('{') => self.object(),
            Some('[') => self.list(),
            Some('"') => self.text().map(Value::Text),
            _ => self.number(),
        }
    }

    /// Takes off what has to be next.
    fn take(&mut self, expected: char) -> Result<(), String> {
        let rest = self.0.strip_prefix(expected);
        self.0 = rest.ok_or(format!("expected {expected:?} at {:?}", self.0))?;
        Ok(())
    }

    /// Entries with commas between them, up to the end.
    fn entries(
        &mut self,
        end: char,
        mut entry: impl FnMut(&mut Self) -> Result<(), String>,
    ) -> Result<(), String> {
        if !self.0.starts_with(end) {
            entry(self)?;
            while !self.0.starts_with(end) {
                self.take(',')?;
                entry(self)?;
            }
        }
        self.take(end)
    }

    fn object(&mut self) -> Result<Value, String> {
        let mut fields = BTreeMap::new();
        self.take('{')?;
        self.entries('}', |reader| {
            let name = reader.text()?;
            reader.take(':')?;
            let value = reader.value()?;
            let twice = fields.insert(name.clone(), value).map(|_| format!("{name} stands twice"));
            twice.map_or(Ok(()), Err)
        })?;
        Ok(Value::Object(fields))
    }

    fn list(&mut self) -> Result<Value, String> {
        let mut values = Vec::new();
        self.take('[')?;
        self.entries(']', |reader| reader.value().map(|value| values.push(value)))?;
        Ok(Value::List(values))
    }

    fn text(&mut self) -> Result<String, String> {
        self.take('"')?;
        let mut text = String::new();
        loop {
            let next = self.0.chars().next().ok_or("a text does not end")?;
            self.take(next)?;
            match next {
                '"' => return Ok(text),
                '\\' => text.push(self.escaped()?),
                control if control < ' ' => return Err(format!("{control:?} in a text")),
                plain => text.push(plain),
            }
        }
    }

    fn escaped(&mut self) -> Result<char, String> {
        let next = self.0.chars().next().ok_or("a text does not end")?;
        self.take(next)?;
        match next {
            '"' | '\\' | '/' => Ok(next),
            'n' => Ok('\n'),
            't' => Ok('\t'),
            'u' => {
                let digits = self.0.get(..4).ok_or("too few digits")?;
                self.0 = &self.0[4..];
                let code = u32::from_str_radix(digits, 16).map_err(|error| error.to_string())?;
                char::from_u32(code).ok_or(format!("{digits} is no character"))
            }
            other => Err(format!("{other:?} is not to be escaped")),
        }
    }

    /// A whole number without leading zeros.
    fn number(&mut self) -> Result<Value, String> {
        let length = self.0.find(|c: char| c != '-' && !c.is_ascii_digit());
        let (number, rest) = self.0.split_at(length.unwrap_or(self.0.len()));
        self.0 = rest;
        let parsed: i128 = number.parse().map_err(|_| format!("{number:?} is no number"))?;
        if parsed.to_string() != number {
            return Err(format!("{number:?} is written otherwise"));
        }
        Ok(Value::Number(parsed))
    }
}
