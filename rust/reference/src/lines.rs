//! Lines of a text, each ended by one LF, and their refusals. Lines and columns are counted from 1, columns in bytes.

use crate::{Reason, Refusal};

/// A text that is taken line by line.
pub struct Lines<'a> {
    rest: &'a [u8],
    /// The number of the line taken last.
    number: u64,
    not_as_laid_out: Reason,
}

impl<'a> Lines<'a> {
    /// The lines of a text, and why it is refused where one of them is not as laid out.
    pub fn new(text: &'a [u8], not_as_laid_out: Reason) -> Self {
        Lines {
            rest: text,
            number: 0,
            not_as_laid_out,
        }
    }

    /// The next line. One that is missing is empty and has no LF.
    pub fn next(&mut self) -> Line<'a> {
        self.number += 1;
        let feed = self.rest.iter().position(|&b| b == b'\n');
        let (bytes, after) = self.rest.split_at(feed.unwrap_or(self.rest.len()));
        self.rest = after.get(1..).unwrap_or(&[]);
        Line {
            bytes,
            ended: feed.is_some(),
            taken: 0,
            number: self.number,
            not_as_laid_out: self.not_as_laid_out,
        }
    }

    /// The text must end here.
    pub fn end(mut self) -> Result<(), Refusal> {
        let ended = self.rest.is_empty();
        let more = self.next();
        if ended {
            Ok(())
        } else {
            Err(more.misplaced())
        }
    }
}

/// A line that is taken from left to right. Each byte is taken only if the line can still be as laid out with it, so that
/// the first one that is not taken is the one that no byte after it makes good.
pub struct Line<'a> {
    /// Without its LF.
    bytes: &'a [u8],
    ended: bool,
    taken: usize,
    number: u64,
    not_as_laid_out: Reason,
}

impl<'a> Line<'a> {
    /// Takes these bytes.
    pub fn bytes(&mut self, wanted: &[u8]) -> Result<(), Refusal> {
        wanted.iter().try_for_each(|&byte| self.byte(byte..=byte).map(|_| ()))
    }

    /// Takes one byte of a range.
    pub fn byte(&mut self, allowed: std::ops::RangeInclusive<u8>) -> Result<u8, Refusal> {
        let byte = self.byte_if_any(allowed);
        byte.ok_or_else(|| self.misplaced())
    }

    /// Takes one byte of a range, if it comes next.
    pub fn byte_if_any(&mut self, allowed: std::ops::RangeInclusive<u8>) -> Option<u8> {
        let byte = *self.bytes.get(self.taken)?;
        allowed.contains(&byte).then(|| self.taken += 1)?;
        Some(byte)
    }

    /// Takes all bytes up to the LF.
    pub fn rest(&mut self) -> Result<&'a [u8], Refusal> {
        let rest = &self.bytes[self.taken..];
        self.taken = self.bytes.len();
        self.end()?;
        Ok(rest)
    }

    /// The LF must come next.
    pub fn end(&self) -> Result<(), Refusal> {
        if self.taken == self.bytes.len() && self.ended {
            Ok(())
        } else {
            Err(self.misplaced())
        }
    }

    /// Refused at the first byte that is not taken, or one past the line's end.
    pub fn misplaced(&self) -> Refusal {
        self.refused(self.not_as_laid_out, self.taken)
    }

    /// Refused at the byte with so many before it.
    pub fn refused(&self, reason: Reason, before: usize) -> Refusal {
        Refusal {
            reason,
            line: self.number,
            column: 1 + before as u64,
            needed: 0,
        }
    }
}
