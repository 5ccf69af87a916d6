//! Lines of a text and their words, with the places where they stand.

use std::fmt;
use std::ops::RangeInclusive;

/// What can't be read in a text, and where: line and column count from 1.
#[derive(Debug, PartialEq, Eq)]
pub struct Mistake {
    pub line: usize,
    pub column: usize,
    pub words: String,
}

impl fmt::Display for Mistake {
    fn fmt(&self, f: &mut fmt::Formatter) -> fmt::Result {
        write!(f, "{}:{}: {}", self.line, self.column, self.words)
    }
}

impl Mistake {
    /// The mistake with what to do about it.
    pub fn with(self, hint: &str) -> Mistake {
        Mistake { words: format!("{}; {hint}", self.words), ..self }
    }
}

/// A word and its place.
#[derive(Clone, Copy)]
pub struct Word<'a> {
    bytes: &'a [u8],
    line: usize,
    column: usize,
}

impl<'a> Word<'a> {
    /// The word's characters; none that is expected anywhere is other than ASCII.
    pub fn text(&self) -> &'a str {
        std::str::from_utf8(self.bytes).unwrap_or_default()
    }

    /// Something else was expected here.
    pub fn mistake(&self, expected: &str) -> Mistake {
        let mistake = self.wrong(format!("expected {expected}, found {}", self.shown()));
        if self.text().starts_with('\u{2212}') {
            return mistake.with("this minus is U+2212, write -");
        }
        mistake
    }

    /// The word is wrong, in words.
    pub fn wrong(&self, words: String) -> Mistake {
        Mistake { line: self.line, column: self.column, words }
    }

    /// The word between quotation marks, cut where it is long.
    pub fn shown(&self) -> String {
        const LONGEST: usize = 24;
        let start = &self.bytes[..self.bytes.len().min(LONGEST)];
        let dots = if self.bytes.len() > LONGEST { ".." } else { "" };
        format!("{:?}{dots}", String::from_utf8_lossy(start))
    }

    /// The whole number that the word is.
    pub fn number(&self, range: RangeInclusive<i64>) -> Result<i64, Mistake> {
        if !is_whole(self.text()) {
            return Err(self.mistake("a whole number"));
        }
        let number = self.text().parse().ok().filter(|number| range.contains(number));
        number.ok_or_else(|| {
            self.mistake(&format!("a number from {} to {}", range.start(), range.end()))
        })
    }
}

/// The text is a whole number: digits, with a sign before them or without.
pub fn is_whole(text: &str) -> bool {
    let digits = text.strip_prefix(['-', '+']).unwrap_or(text);
    !digits.is_empty() && digits.bytes().all(|digit| digit.is_ascii_digit())
}

/// A line that has words.
pub struct Line<'a> {
    pub number: usize,
    words: std::vec::IntoIter<Word<'a>>,
    /// The column behind the last word.
    end: usize,
}

impl<'a> Line<'a> {
    /// The words of a line without its comment.
    fn new(number: usize, bytes: &'a [u8]) -> Line<'a> {
        let bytes = bytes.split(|&byte| byte == b'#').next().unwrap_or_default();
        let mut words = Vec::new();
        let mut column = 1;
        for bytes in bytes.split(|byte| b" \t\r".contains(byte)) {
            if !bytes.is_empty() {
                words.push(Word { bytes, line: number, column });
            }
            column += bytes.len() + 1;
        }
        let end = words.last().map_or(1, |word| word.column + word.bytes.len());
        Line { number, words: words.into_iter(), end }
    }

    /// The first of the words that are left.
    fn first(&self) -> Option<&Word<'a>> {
        self.words.as_slice().first()
    }

    fn begins_with(&self, keyword: &str) -> bool {
        self.first().is_some_and(|word| word.bytes == keyword.as_bytes())
    }

    /// The next word; what was expected stands in the mistake.
    pub fn word(&mut self, expected: &str) -> Result<Word<'a>, Mistake> {
        let words = format!("expected {expected}, found the line's end");
        self.words.next().ok_or(Mistake { line: self.number, column: self.end, words })
    }

    /// The next word where it is a whole number.
    pub fn whole(&mut self) -> Option<Word<'a>> {
        if is_whole(self.first()?.text()) {
            self.words.next()
        } else {
            None
        }
    }

    /// How many whole numbers are next.
    pub fn wholes(&self) -> usize {
        self.words.as_slice().iter().take_while(|word| is_whole(word.text())).count()
    }

    /// After so many words comes one that is meant as a number.
    pub fn has_number_like(&self, after: usize) -> bool {
        let is_letter = |byte: &u8| byte.is_ascii_alphabetic();
        self.words.as_slice().get(after).is_some_and(|word| !word.bytes.iter().all(is_letter))
    }

    /// A mistake where the word stands that is after so many, or where it is missing.
    pub fn mistake_at(&self, after: usize, words: String) -> Mistake {
        let column = self.words.as_slice().get(after).map_or(self.end, |word| word.column);
        Mistake { line: self.number, column, words }
    }

    /// One of the keywords has to be next.
    pub fn keyword(&mut self, keywords: &[&str]) -> Result<Word<'a>, Mistake> {
        let expected = keywords.iter().map(|one| format!("{one:?}")).collect::<Vec<_>>();
        let expected = expected.join(" or ");
        let word = self.word(&expected)?;
        if keywords.contains(&word.text()) {
            Ok(word)
        } else {
            Err(word.mistake(&expected))
        }
    }

    /// The next word as a whole number.
    pub fn number(&mut self, range: RangeInclusive<i64>) -> Result<i64, Mistake> {
        self.word("a whole number")?.number(range)
    }

    /// No word is left.
    pub fn end(mut self) -> Result<(), Mistake> {
        match self.words.next() {
            Some(word) => Err(word.mistake("the line's end")),
            None => Ok(()),
        }
    }
}

/// The lines of a text that have words.
pub struct Lines<'a> {
    rest: &'a [u8],
    /// How many lines were taken off the rest.
    number: usize,
    next: Option<Line<'a>>,
}

impl<'a> Lines<'a> {
    pub fn new(text: &'a [u8]) -> Lines<'a> {
        let rest = text.strip_prefix(b"\xef\xbb\xbf").unwrap_or(text);
        let mut lines = Lines { rest, number: 0, next: None };
        lines.advance();
        lines
    }

    /// Takes off the next line that has words.
    fn advance(&mut self) -> Option<Line<'a>> {
        let mut next = None;
        while next.is_none() && !self.rest.is_empty() {
            let length = self.rest.iter().position(|&byte| byte == b'\n');
            let (line, rest) = self.rest.split_at(length.unwrap_or(self.rest.len()));
            self.rest = rest.strip_prefix(b"\n").unwrap_or(rest);
            self.number += 1;
            next = Some(Line::new(self.number, line)).filter(|line| line.first().is_some());
        }
        std::mem::replace(&mut self.next, next)
    }

    /// The next line behind its keyword, where it begins with that.
    pub fn take_if(&mut self, keyword: &str) -> Option<Line<'a>> {
        if !self.next.as_ref()?.begins_with(keyword) {
            return None;
        }
        let mut line = self.advance()?;
        line.words.next();
        Some(line)
    }

    /// The next line behind its keyword, with which it has to begin.
    pub fn take(&mut self, keyword: &str) -> Result<Line<'a>, Mistake> {
        self.take_if(keyword).ok_or_else(|| self.mistake(&format!("{keyword:?}")))
    }

    /// No line is left, or what else was expected.
    pub fn end(&self, expected: &str) -> Result<(), Mistake> {
        match self.next {
            Some(_) => Err(self.mistake(&format!("{expected} or the text's end"))),
            None => Ok(()),
        }
    }

    /// Something else was expected where the next line begins.
    pub fn mistake(&self, expected: &str) -> Mistake {
        match self.next.as_ref().and_then(Line::first) {
            Some(word) => word.mistake(expected),
            None => {
                let words = format!("expected {expected}, found the text's end");
                Mistake { line: self.number.max(1), column: 1, words }
            }
        }
    }
}
