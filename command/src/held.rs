//! What files hold: a claim, a proof, both one after the other, or limits, in bytes or as text.

use crate::arguments::Arguments;
use crate::files::{Inputs, STANDARD_INPUT};
use crate::library::{self, Text};
use crate::output::complain;
use crate::sheet::{Claim, Limits};
use crate::status::{trouble, Trouble};
use crate::text::{self, Part, Parts};
use crate::words::Mistake;

/// A sheet with the file that holds it, and in a text the lines of its terms, rows or variables.
pub struct Held {
    pub bytes: Vec<u8>,
    pub file: String,
    lines: Vec<usize>,
    start: Option<usize>,
}

impl Held {
    fn in_bytes(file: &str, bytes: &[u8]) -> Held {
        Held { bytes: bytes.to_vec(), file: shown(file), lines: Vec::new(), start: None }
    }

    fn in_text(file: &str, Part { bytes, lines, start, unscaled }: Part) -> Held {
        warn(&shown(file), &unscaled);
        Held { bytes, file: shown(file), lines, start: Some(start) }
    }

    /// The file and line of the term, row or variable, where the sheet was a text.
    pub fn place(&self, index: usize) -> Option<String> {
        let line = self.lines.get(index).filter(|&&line| line > 0)?;
        Some(format!("{}:{line}", self.file))
    }

    /// The file, with the line of a text where the sheet begins.
    pub fn beginning(&self) -> String {
        self.start.map_or(self.file.clone(), |line| format!("{}:{line}", self.file))
    }
}

/// Tells the first weights of a text that may be meant otherwise, and how many more there are.
fn warn(file: &str, unscaled: &[Mistake]) {
    const MOST_TOLD: usize = 3;
    for weight in unscaled.iter().take(MOST_TOLD) {
        complain(&format!("burmelox: {file}:{weight}\n"));
    }
    if unscaled.len() > MOST_TOLD {
        let more = unscaled.len() - MOST_TOLD;
        complain(&format!("burmelox: {file}: and {more} more whole numbers among the weights\n"));
    }
}

/// What a file holds.
#[derive(Clone, Copy, Debug, PartialEq, Eq)]
pub enum Kind {
    Claim,
    Proof,
    Both,
    Limits,
}

impl Kind {
    pub const ALL: [Kind; 4] = [Kind::Claim, Kind::Proof, Kind::Both, Kind::Limits];

    /// The kind's name as an argument.
    pub fn name(self) -> &'static str {
        match self {
            Kind::Claim => "claim",
            Kind::Proof => "proof",
            Kind::Both => "both",
            Kind::Limits => "limits",
        }
    }
}

/// The sheets in a file.
#[derive(Default)]
pub struct Contents {
    pub claim: Option<Held>,
    pub proof: Option<Held>,
    pub limits: Option<Held>,
}

impl Contents {
    /// The sheets in a text.
    pub fn of_text(file: &str, text: &[u8]) -> Result<Contents, Trouble> {
        if text.is_empty() {
            return trouble(format!("{}: the file is empty", shown(file)));
        }
        let read = text::read(text);
        let Parts { claim, proof, limits } =
            read.map_err(|mistake| Trouble(format!("{}:{mistake}", shown(file))))?;
        let held = |part: Option<Part>| part.map(|part| Held::in_text(file, part));
        Ok(Contents { claim: held(claim), proof: held(proof), limits: held(limits) })
    }

    /// The sheets in bytes of a kind.
    pub fn of_bytes(file: &str, bytes: &[u8], kind: Kind) -> Contents {
        let held = |bytes| Some(Held::in_bytes(file, bytes));
        let none = Contents::default();
        match kind {
            Kind::Claim => Contents { claim: held(bytes), ..none },
            Kind::Proof => Contents { proof: held(bytes), ..none },
            Kind::Limits => Contents { limits: held(bytes), ..none },
            Kind::Both => {
                let (claim, proof) = split(bytes);
                Contents { claim: held(claim), proof: held(proof), ..none }
            }
        }
    }

    /// The sheets in a file, a text or bytes of a kind.
    fn read(inputs: &mut Inputs, file: &str, kind: Kind) -> Result<Contents, Trouble> {
        let bytes = inputs.read(file)?;
        if text::is_text(&bytes) {
            Contents::of_text(file, &bytes)
        } else {
            Ok(Contents::of_bytes(file, &bytes, kind))
        }
    }

    /// The sheets by name in their order in the file, with the library's texts.
    pub fn texts(&self) -> Vec<(&'static str, &Held, Text)> {
        let claim = self.claim.iter().map(|held| ("claim", held, library::claim_text(&held.bytes)));
        let proof = self.proof.iter().map(|held| ("proof", held, library::proof_text(&held.bytes)));
        let limits =
            self.limits.iter().map(|held| ("limits", held, library::limits_text(&held.bytes)));
        claim.chain(proof).chain(limits).collect()
    }
}

/// A sheet that has to be there.
fn needed(file: &str, held: Option<Held>, what: &str) -> Result<Held, Trouble> {
    held.ok_or_else(|| Trouble(format!("{}: there is no {what} in this file", shown(file))))
}

/// A file's name in messages.
fn shown(file: &str) -> String {
    if file == STANDARD_INPUT { "standard input" } else { file }.to_string()
}

/// The claim that a file holds; a proof behind it is left alone.
pub fn claim(inputs: &mut Inputs, file: &str) -> Result<Held, Trouble> {
    let bytes = inputs.read(file)?;
    if text::is_text(&bytes) {
        return needed(file, Contents::of_text(file, &bytes)?.claim, "claim");
    }
    let (claim, rest) = split(&bytes);
    let claim = if library::proof_text(rest).is_ok() { claim } else { &bytes };
    Ok(Held::in_bytes(file, claim))
}

/// The proof that a file holds; of a claim and its proof the latter.
pub fn proof(inputs: &mut Inputs, file: &str) -> Result<Held, Trouble> {
    let bytes = inputs.read(file)?;
    if text::is_text(&bytes) {
        return needed(file, Contents::of_text(file, &bytes)?.proof, "proof");
    }
    let (_, rest) = split(&bytes);
    let is_proof = |bytes| library::proof_text(bytes).is_ok();
    let proof = if !is_proof(&bytes) && is_proof(rest) { rest } else { &bytes };
    Ok(Held::in_bytes(file, proof))
}

/// The limits that a file holds.
fn limits(inputs: &mut Inputs, file: &str) -> Result<Held, Trouble> {
    needed(file, Contents::read(inputs, file, Kind::Limits)?.limits, "limits sheet")
}

/// The claim that a file holds, and the proof behind it where there is one. A right claim with
/// nothing behind it has none; what is behind a wrong one does not count.
pub fn claim_and_proof(inputs: &mut Inputs, file: &str) -> Result<(Held, Option<Held>), Trouble> {
    let Contents { claim, proof, .. } = Contents::read(inputs, file, Kind::Both)?;
    let claim = needed(file, claim, "claim")?;
    let is_right = || library::claim_text(&claim.bytes).is_ok();
    let proof = proof.filter(|proof| !proof.bytes.is_empty() || !is_right());
    Ok((claim, proof))
}

/// The claim and the proof that one file holds.
fn both(inputs: &mut Inputs, file: &str) -> Result<(Held, Held), Trouble> {
    let (claim, proof) = claim_and_proof(inputs, file)?;
    Ok((claim, needed(file, proof, "proof")?))
}

/// A claim and what follows it, parted as the program parts its input: by the claim's own length,
/// unless 1 or 2 refuse it or it ends before.
pub fn split(bytes: &[u8]) -> (&[u8], &[u8]) {
    let whole = (bytes, &[][..]);
    match (library::claim_text(bytes), Claim::length(bytes)) {
        (Err(refusal), Some(length)) if refusal.number == 3 => {
            bytes.split_at_checked(length).unwrap_or(whole)
        }
        _ => whole,
    }
}

/// The sheets of a check or a search.
pub struct Sheets {
    pub claim: Held,
    pub proof: Held,
    /// The limits where there are some.
    pub given_limits: Option<Held>,
    /// The limits that are handed over.
    pub limits: Vec<u8>,
}

impl Sheets {
    /// The sheets in files; without a proof the claim's file holds that too.
    pub fn read(claim: &str, proof: Option<&str>, limits: Option<&str>) -> Result<Sheets, Trouble> {
        let mut inputs = Inputs::default();
        let (claim, proof) = match proof {
            Some(proof) => (self::claim(&mut inputs, claim)?, self::proof(&mut inputs, proof)?),
            None => both(&mut inputs, claim)?,
        };
        let given_limits = limits.map(|file| self::limits(&mut inputs, file)).transpose()?;
        let limits = match &given_limits {
            Some(limits) => limits.bytes.clone(),
            None => Limits::none(claim.bytes.first().copied().unwrap_or(0)).bytes(),
        };
        Ok(Sheets { claim, proof, given_limits, limits })
    }

    /// The sheets that the arguments name.
    pub fn of(arguments: &Arguments) -> Result<Sheets, Trouble> {
        let operand = |index: usize| arguments.operands.get(index).map(String::as_str);
        let claim = operand(0).expect("the claim is not left out");
        Sheets::read(claim, operand(1), arguments.value("--limits"))
    }
}
