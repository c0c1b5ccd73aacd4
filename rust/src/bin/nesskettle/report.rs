//! Files that are read, and failures in words, with the line that is at fault.

use nesskettle::{Reason, Refusal};
use std::fmt;
use std::io::Read;

/// How many characters of a line are shown.
const SHOWN: usize = 72;

/// Why there is no answer, for people.
#[derive(Debug)]
pub struct Failure {
    words: String,
    /// The library's, where it refused.
    pub reason: Option<Reason>,
}

impl Failure {
    /// Something else than a refusal.
    pub fn new(words: String) -> Failure {
        Failure { words, reason: None }
    }

    /// With a line more.
    pub fn with(self, line: &str) -> Failure {
        let words = format!("{}\n  {line}", self.words);
        Failure { words, ..self }
    }
}

impl fmt::Display for Failure {
    fn fmt(&self, f: &mut fmt::Formatter<'_>) -> fmt::Result {
        f.write_str(&self.words)
    }
}

/// A file's bytes, and what to call it.
pub struct File {
    pub name: String,
    pub bytes: Vec<u8>,
}

impl File {
    /// Reads the file, or standard input for `-`.
    pub fn read(path: &str) -> Result<File, Failure> {
        let mut bytes = Vec::new();
        let (name, read) = match path {
            "-" => ("standard input", std::io::stdin().read_to_end(&mut bytes)),
            _ => (
                path,
                std::fs::File::open(path).and_then(|mut f| f.read_to_end(&mut bytes)),
            ),
        };
        read.map_err(|e| Failure::new(format!("cannot read {name}: {e}")))?;
        Ok(File {
            name: name.to_string(),
            bytes,
        })
    }

    /// The refusal in words, with this file's line and a mark under the column if they are named.
    pub fn refused(&self, refusal: Refusal) -> Failure {
        Failure {
            words: self.in_words(&refusal),
            reason: Some(refusal.reason),
        }
    }

    fn in_words(&self, refusal: &Refusal) -> String {
        if refusal.line == 0 {
            return refusal.to_string();
        }
        let place = format!("  {}:{}: ", self.name, refusal.line);
        let (before, after) = self.line(refusal);
        let left = place.chars().count() + before.len();
        format!("{refusal}\n{place}{before}{after}\n{}^", " ".repeat(left))
    }

    /// The faulty line as it is shown, in two parts: what stands before the column, and the rest.
    fn line(&self, refusal: &Refusal) -> (String, String) {
        let mut lines = self.bytes.split_inclusive(|&b| b == b'\n');
        let Some(line) = lines.nth(refusal.line as usize - 1) else {
            return (String::new(), "(the text ends before this line)".to_string());
        };
        let at = refusal.column as usize - 1;
        let (before, mut after) = around(line.strip_suffix(b"\n").unwrap_or(line), at);
        if at == line.len() {
            after += match refusal.reason {
                Reason::Layout | Reason::BadCase => " (no line feed)",
                _ => " (the text ends here)",
            };
        }
        (before, after)
    }

    /// The digits of a setting file as numbers; blanks between them do not count.
    pub fn digits(&self) -> Result<Vec<u8>, Failure> {
        let written = self.bytes.iter().enumerate().filter(|(_, b)| !b.is_ascii_whitespace());
        let digit = |(at, byte): (usize, &u8)| match byte {
            b'0'..=b'9' => Ok(byte - b'0'),
            _ => Err(Failure::new(format!(
                "{}: byte {} is neither a digit nor a blank",
                self.name,
                at + 1
            ))),
        };
        written.map(digit).collect()
    }
}

/// The part of a line around a place that is shown: what stands before the place, and the rest.
fn around(line: &[u8], at: usize) -> (String, String) {
    let (before, after) = line.split_at(at);
    // half of the room for what stands before, or all that the rest leaves
    let left = shown(before)
        .len()
        .min(SHOWN.saturating_sub(shown(after).len()).max(SHOWN / 2));
    let start = at - fitting(before.iter().rev(), left);
    let end = at + fitting(after.iter(), SHOWN - left);
    let less = if start > 0 { ".. " } else { "" };
    let more = if end < line.len() { " .." } else { "" };
    (
        less.to_string() + &shown(&line[start..at]),
        shown(&line[at..end]) + more,
    )
}

/// How many of the bytes are shown in so many characters.
fn fitting<'a>(bytes: impl Iterator<Item = &'a u8>, characters: usize) -> usize {
    let widths = bytes.map(|&byte| shown(&[byte]).len());
    let sums = widths.scan(0, |sum, width| {
        *sum += width;
        Some(*sum)
    });
    sums.take_while(|&sum| sum <= characters).count()
}

/// The bytes as characters that are all printed and equally wide: those outside ASCII's printed ones are escaped.
fn shown(bytes: &[u8]) -> String {
    let shown = |&byte: &u8| match byte {
        b' '..=b'~' => char::from(byte).to_string(),
        _ => byte.escape_ascii().to_string(),
    };
    bytes.iter().map(shown).collect()
}

/// A refusal of a call that takes a sheet and a case: 12 speaks of the case, the others of the sheet.
pub fn sheet_or_case_refused(refusal: Refusal, sheet: &File, case: &File) -> Failure {
    let file = if refusal.reason == Reason::BadCase { case } else { sheet };
    file.refused(refusal)
}
