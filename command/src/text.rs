//! The text of sheets, read as it may be written by hand: with comments, blank lines, terms in any
//! order, and weights of the polynomial itself that the scale is still to be multiplied into.

use crate::fractions::Fraction;
use crate::sheet::{Claim, Limit, Limits, Point, Proof, Row, Term};
use crate::words::{is_whole, Line, Lines, Mistake, Word};
use std::ops::RangeInclusive;

/// A sheet in bytes, and the lines of its terms, rows or variables; 0 for one without a line.
#[derive(Debug, PartialEq, Eq)]
pub struct Part {
    pub bytes: Vec<u8>,
    pub lines: Vec<usize>,
    /// The line that the sheet begins with.
    pub start: usize,
    /// Of a proof, weights that stand as they are among others that do not.
    pub unscaled: Vec<Mistake>,
}

/// The sheets of a text.
#[derive(Debug, Default, PartialEq, Eq)]
pub struct Parts {
    pub claim: Option<Part>,
    pub proof: Option<Part>,
    pub limits: Option<Part>,
}

const BYTE: RangeInclusive<i64> = 0..=u8::MAX as i64;
const HALF: RangeInclusive<i64> = 0..=u16::MAX as i64;
const WORD: RangeInclusive<i64> = 0..=u32::MAX as i64;
const SIGNED: RangeInclusive<i64> = i32::MIN as i64..=i32::MAX as i64;

/// The bytes are a text: a sheet begins with its n, from 1 to 8.
pub fn is_text(bytes: &[u8]) -> bool {
    bytes.first().is_some_and(|&first| first > 8)
}

/// The sheets in a text: a claim, a proof, a claim and its proof, or limits.
pub fn read(text: &[u8]) -> Result<Parts, Mistake> {
    let mut lines = Lines::new(text);
    let mut parts = Parts::default();
    if let Some(start) = start(&mut lines, "limits")? {
        parts.limits = Some(limits(&mut lines, start)?);
        lines.end("\"variable\"")?;
        return Ok(parts);
    }
    if let Some(start) = start(&mut lines, "claim")? {
        parts.claim = Some(claim(&mut lines, start)?);
    }
    if let Some(start) = start(&mut lines, "proof")? {
        parts.proof = Some(proof(&mut lines, start)?);
        lines.end("\"row\"")?;
    }
    if parts.claim.is_none() && parts.proof.is_none() {
        return Err(lines.mistake("\"claim\", \"proof\" or \"limits\""));
    }
    lines.end("\"term\", \"proof\"")?;
    Ok(parts)
}

/// The line where a sheet begins, with its name alone.
fn start(lines: &mut Lines, name: &str) -> Result<Option<usize>, Mistake> {
    let Some(line) = lines.take_if(name) else { return Ok(None) };
    let number = line.number;
    line.end()?;
    Ok(Some(number))
}

/// The number on a line of its own, behind its keyword.
fn field(line: Line, range: RangeInclusive<i64>) -> Result<i64, Mistake> {
    let mut line = line;
    let number = line.number(range)?;
    line.end()?;
    Ok(number)
}

/// What is said of a coefficient or a floor that is a fraction.
const WHOLE: &str = "coefficients and floor are whole: multiply the whole polynomial and the \
                     weights by one number";

/// The number of a coefficient or a floor.
fn amount(word: Word) -> Result<i32, Mistake> {
    let is_fraction = || !is_whole(word.text()) && with_point(word).is_some();
    match word.number(SIGNED) {
        Err(mistake) if is_fraction() => Err(mistake.with(WHOLE)),
        number => Ok(number? as i32),
    }
}

/// The fraction that a word is with a decimal point for a comma.
fn with_point(word: Word) -> Option<Fraction> {
    Fraction::parse(&word.text().replacen(',', ".", 1))
}

/// The exponents of a point, with no number behind them.
fn point(line: &mut Line, n: u8) -> Result<Point, Mistake> {
    let found = line.wholes();
    if found != usize::from(n) && !line.has_number_like(found) {
        let many = if n == 1 { "" } else { "s" };
        let words = format!("expected {n} exponent{many}, found {found}");
        return Err(line.mistake_at(found.min(n.into()), words));
    }
    let exponent = |_| Ok(line.number(BYTE)? as u8);
    (0..n).map(exponent).collect()
}

/// A term as it stands, with its line and its index where that is given.
struct Written<'a> {
    term: Term,
    line: usize,
    index: Option<Word<'a>>,
}

fn claim(lines: &mut Lines, start: usize) -> Result<Part, Mistake> {
    let n = field(lines.take("variables")?, BYTE)? as u8;
    let mask = lines.take_if("mask").map_or(Ok(0), |line| field(line, BYTE))? as u8;
    let mut line = lines.take("floor")?;
    let floor = amount(line.word("a whole number")?)?;
    line.end()?;
    let mut written = Vec::new();
    while let Some(line) = lines.take_if("term") {
        if written.len() == usize::from(u8::MAX) {
            return Err(full(&line, "terms", written.len()));
        }
        written.push(term(line, n)?);
    }
    written.sort_by(|one, other| one.term.point.cmp(&other.term.point));
    are_sorted(&written)?;
    let lines = written.iter().map(|written| written.line).collect();
    let terms = written.into_iter().map(|written| written.term).collect();
    Ok(Part { bytes: Claim { n, mask, floor, terms }.bytes(), lines, start, unscaled: Vec::new() })
}

/// There is one more than the sheet's count can say.
fn full(line: &Line, what: &str, most: usize) -> Mistake {
    let words = format!("a sheet has at most {most} {what}");
    Mistake { line: line.number, column: 1, words }
}

fn term<'a>(mut line: Line<'a>, n: u8) -> Result<Written<'a>, Mistake> {
    let number = line.number;
    let index = line.whole();
    line.keyword(&["coefficient"])?;
    let coefficient = amount(line.word("a whole number")?)?;
    line.keyword(&["exponents"])?;
    let point = point(&mut line, n)?;
    line.end()?;
    Ok(Written { term: Term { point, coefficient }, line: number, index })
}

/// No point of the sorted terms stands twice, and the indices are the places in that order.
fn are_sorted(sorted: &[Written]) -> Result<(), Mistake> {
    for two in sorted.windows(2) {
        if two[0].term.point == two[1].term.point {
            let words = format!("the point of line {} stands here again", two[0].line);
            return Err(Mistake { line: two[1].line, column: 1, words });
        }
    }
    let given = sorted.iter().enumerate().filter_map(|(place, term)| Some((place, term.index?)));
    for (place, index) in given {
        is_index(index, place, ", its place by the order of points")?;
    }
    Ok(())
}

/// The index that is given is the right one.
fn is_index(given: Word, index: usize, why: &str) -> Result<(), Mistake> {
    if given.number(0..=i64::MAX)? == index as i64 {
        return Ok(());
    }
    Err(given.mistake(&format!("{index}{why}")))
}

fn proof(lines: &mut Lines, start: usize) -> Result<Part, Mistake> {
    let n = field(lines.take("variables")?, BYTE)? as u8;
    let scale = field(lines.take("scale")?, WORD)? as u32;
    let mut weights = Weights { scale, whole: Vec::new(), scaled: 0 };
    let (mut rows, mut places) = (Vec::new(), Vec::new());
    while let Some(line) = lines.take_if("row") {
        if rows.len() == usize::from(u16::MAX) {
            return Err(full(&line, "rows", rows.len()));
        }
        places.push(line.number);
        rows.push(row(line, rows.len(), n, &mut weights)?);
    }
    let unscaled = weights.unscaled();
    Ok(Part { bytes: Proof { n, scale, rows }.bytes(), lines: places, start, unscaled })
}

fn row<'a>(
    mut line: Line<'a>,
    index: usize,
    n: u8,
    read: &mut Weights<'a>,
) -> Result<Row, Mistake> {
    if let Some(given) = line.whole() {
        is_index(given, index, "")?;
    }
    let kind = line.keyword(&["pair", "lone"])?;
    let is_pair = kind.text() == "pair";
    line.keyword(&["v"])?;
    let v = point(&mut line, n)?;
    let w = if is_pair { end(&mut line, n)? } else { v.clone() };
    if is_pair && v == w {
        return Err(kind.wrong("v and w are one point: write lone, with p alone".to_string()));
    }
    let mut weights = [0; 3];
    let names = if is_pair { &["p", "q", "r"][..] } else { &["p"] };
    for (weight, name) in weights.iter_mut().zip(names) {
        line.keyword(&[name])?;
        *weight = read.weight(line.word("a weight")?)?;
    }
    line.end()?;
    Ok(Row { v, w, weights })
}

/// The second end of a pair.
fn end(line: &mut Line, n: u8) -> Result<Point, Mistake> {
    line.keyword(&["w"])?;
    point(line, n)
}

/// The weights of a proof as they are read: a whole number as it stands, any other times the scale.
struct Weights<'a> {
    scale: u32,
    /// Those that stand as they are and are not 0.
    whole: Vec<Word<'a>>,
    /// How many were taken times the scale.
    scaled: usize,
}

impl<'a> Weights<'a> {
    fn weight(&mut self, word: Word<'a>) -> Result<i32, Mistake> {
        if is_whole(word.text()) {
            let weight = word.number(SIGNED)? as i32;
            self.whole.extend((weight != 0).then_some(word));
            return Ok(weight);
        }
        self.scaled += 1;
        let fraction = Fraction::parse(word.text()).ok_or_else(|| no_weight(word))?;
        let scale = self.scale;
        let beyond = format!("{} times the scale {scale} does not fit into 32 bits", word.shown());
        fraction.rounded(scale).ok_or_else(|| word.wrong(beyond))
    }

    /// The whole numbers among weights that are scaled.
    fn unscaled(&self) -> Vec<Mistake> {
        let Weights { scale, whole, scaled } = self;
        let is_mixed = *scale > 1 && *scaled > 0;
        let words = |word: &Word| {
            let text = word.text();
            word.wrong(format!(
                "{text} stands as it is, the other weights are taken times {scale}: write \
                 {text}.0 if it is one of them"
            ))
        };
        whole.iter().filter(|_| is_mixed).map(words).collect()
    }
}

/// A word that is no weight, with a word on a decimal comma.
fn no_weight(word: Word) -> Mistake {
    let mistake = word.mistake("a number");
    if with_point(word).is_some() {
        return mistake.with("write a point");
    }
    mistake
}

fn limits(lines: &mut Lines, start: usize) -> Result<Part, Mistake> {
    let n = field(lines.take("variables")?, BYTE)? as u8;
    let mut limits = Limits::none(n);
    let mut places = vec![0; n.into()];
    while let Some(mut line) = lines.take_if("variable") {
        let number = line.number;
        let word = line.word("a variable")?;
        let variable = word.number(0..=i64::from(n) - 1)? as usize;
        if places[variable] > 0 {
            let words = format!("variable {variable} stands on line {} too", places[variable]);
            return Err(word.wrong(words));
        }
        places[variable] = number;
        limits.entries[variable] = limit(line)?;
    }
    Ok(Part { bytes: limits.bytes(), lines: places, start, unscaled: Vec::new() })
}

fn limit(mut line: Line) -> Result<Limit, Mistake> {
    line.keyword(&["power"])?;
    let power = line.number(BYTE)? as u8;
    line.keyword(&["limit"])?;
    let limit = line.number(HALF)? as u16;
    line.keyword(&["multiplier"])?;
    let multiplier = line.number(WORD)? as u32;
    line.end()?;
    Ok(Limit { power, limit, multiplier })
}

#[cfg(test)]
mod tests {
    use super::*;

    /// The sheets of a text that can be read.
    fn parts(text: &str) -> Parts {
        read(text.as_bytes()).expect("the text can be read")
    }

    /// What can't be read, with its place.
    fn mistake(text: &str) -> String {
        read(text.as_bytes()).expect_err("the text can't be read").to_string()
    }

    #[test]
    fn a_claim_freely_written() {
        let strict = "claim\nvariables 1\nmask 0\nfloor -1\nterm 0 coefficient 1 exponents 0\n\
                      term 1 coefficient -2 exponents 1\n";
        let free = "# a comment\n\n claim\r\nvariables\t1\nfloor  -1 # no mask\n\
                    term coefficient -2 exponents 1\r\nterm 0 coefficient 1 exponents 0";
        let (strict, free) = (parts(strict).claim.unwrap(), parts(free).claim.unwrap());
        assert_eq!(strict.bytes, free.bytes);
        assert_eq!((strict.lines, free.lines), (vec![5, 6], vec![7, 6]));
    }

    #[test]
    fn a_proof_with_decimals() {
        let text =
            "proof\nvariables 1\nscale 10\nrow pair v 0 w 2 p 0.25 q 1/3 r -7\nrow lone v 2 p 4";
        let rows = Proof::read(&parts(text).proof.unwrap().bytes).unwrap().rows;
        assert_eq!([rows[0].weights, rows[1].weights], [[3, 3, -7], [4, 0, 0]]);
    }

    #[test]
    fn whole_weights_among_scaled_ones() {
        let unscaled = |scale: u32, row: &str| {
            let text = format!("proof\nvariables 1\nscale {scale}\nrow pair v 0 w 2 {row}");
            let unscaled = parts(&text).proof.unwrap().unscaled;
            unscaled.iter().map(ToString::to_string).collect::<Vec<String>>()
        };
        let told =
            "4:20: 5 stands as it is, the other weights are taken times 10: write 5.0 if it \
                    is one of them";
        assert_eq!(unscaled(10, "p 5 q 0.5 r 0"), [told]);
        assert_eq!(unscaled(10, "p 5 q 5 r -7"), [""; 0]);
        assert_eq!(unscaled(1, "p 5 q 0.5 r -7"), [""; 0]);
    }

    #[test]
    fn mistakes_have_their_place() {
        let claim = "claim\nvariables 1\nfloor 0\n";
        let term = |line: &str| mistake(&format!("{claim}{line}"));
        assert_eq!(
            mistake("clam\n"),
            "1:1: expected \"claim\", \"proof\" or \"limits\", found \"clam\""
        );
        assert_eq!(
            mistake("# none\n"),
            "1:1: expected \"claim\", \"proof\" or \"limits\", found the text's end"
        );
        assert_eq!(mistake("claim\nvariables x"), "2:11: expected a whole number, found \"x\"");
        assert_eq!(
            mistake("claim\nvariables 256"),
            "2:11: expected a number from 0 to 255, found \"256\""
        );
        assert_eq!(mistake("claim\nvariables 1 2"), "2:13: expected the line's end, found \"2\"");
        assert_eq!(
            term("  term coefficient 1.5 exponents 0"),
            "4:20: expected a whole number, found \"1.5\"; coefficients and floor are whole: \
             multiply the whole polynomial and the weights by one number"
        );
        assert_eq!(
            term("term coefficient \u{2212}1 exponents 0"),
            "4:18: expected a whole number, found \"\u{2212}1\"; this minus is U+2212, write -"
        );
        assert_eq!(term("term coefficient 1 exponents"), "4:29: expected 1 exponent, found 0");
        assert_eq!(
            term("term coefficient 1 exponents 0 2 4"),
            "4:32: expected 1 exponent, found 3"
        );
        assert_eq!(
            term("term coefficient 1 exponents 1.5"),
            "4:30: expected a whole number, found \"1.5\""
        );
        assert_eq!(
            term("term 1 coefficient 1 exponents 0"),
            "4:6: expected 0, its place by the order of points, found \"1\""
        );
        assert_eq!(
            term("term coefficient 1 exponents 0\nterm coefficient 2 exponents 0"),
            "5:1: the point of line 4 stands here again"
        );
        assert_eq!(
            term("row 0"),
            "4:1: expected \"term\", \"proof\" or the text's end, found \"row\""
        );
    }

    #[test]
    fn mistakes_in_proofs_and_limits() {
        let row = |line: &str| mistake(&format!("proof\nvariables 1\nscale 4\n{line}"));
        assert_eq!(row("row 1 lone v 0 p 1"), "4:5: expected 0, found \"1\"");
        assert_eq!(row("row both v 0 p 1"), "4:5: expected \"pair\" or \"lone\", found \"both\"");
        assert_eq!(
            row("row pair v 2 w 2 p 1 q 0 r 0"),
            "4:5: v and w are one point: write lone, with p alone"
        );
        assert_eq!(row("row lone v 0 p 1/0"), "4:16: expected a number, found \"1/0\"");
        assert_eq!(
            row("row lone v 0 p 0,5"),
            "4:16: expected a number, found \"0,5\"; write a point"
        );
        assert_eq!(row("row pair v w 2 p 1 q 1 r 1"), "4:12: expected 1 exponent, found 0");
        assert_eq!(
            row("row lone v 0 p 1e9"),
            "4:16: \"1e9\" times the scale 4 does not fit into 32 bits"
        );
        let limits = |line: &str| mistake(&format!("limits\nvariables 2\n{line}"));
        assert_eq!(
            limits("variable 2 power 2 limit 5 multiplier 1"),
            "3:10: expected a number from 0 to 1, found \"2\""
        );
        let twice = "variable 1 power 2 limit 5 multiplier 1\n".repeat(2);
        assert_eq!(limits(&twice), "4:10: variable 1 stands on line 3 too");
    }
}
