//! TPTP clauses, read into a sheet.
//!
//! Statement by statement: first whether it is one (15), then its earliest fault as a part of the sheet (16, 17). Last the
//! sheet's bytes (17). So a 15 yields only to faults in whole statements before it.

mod statements;
mod taking;
mod tokens;

use crate::problem::MAX_BYTES;
use crate::{Reason, Refusal};
use statements::Statements;
use taking::Taken;

/// Why a text is refused, and the place of the byte that is named.
#[derive(Debug, PartialEq, Eq)]
struct Fault {
    reason: Reason,
    place: usize,
}

/// The sheet that the text is read into, or refusal 15, 16 or 17.
pub fn sheet(text: &[u8]) -> Result<Vec<u8>, Refusal> {
    read(text).map_err(|fault| refusal(text, fault))
}

fn read(text: &[u8]) -> Result<Vec<u8>, Fault> {
    let mut statements = Statements::new(text);
    let mut taken = Taken::default();
    while let Some(statement) = statements.next()? {
        taken.take(&statement)?;
    }
    let sheet = taken.sheet();
    if sheet.len() > MAX_BYTES {
        return Err(Fault {
            reason: Reason::BeyondSheets,
            place: text.len(),
        });
    }
    Ok(sheet)
}

/// Lines end with LF; lines and columns are counted from 1, columns in bytes.
fn refusal(text: &[u8], fault: Fault) -> Refusal {
    let before = &text[..fault.place];
    let line_start = before.iter().rposition(|&b| b == b'\n').map_or(0, |feed| feed + 1);
    Refusal {
        reason: fault.reason,
        line: 1 + before.iter().filter(|&&b| b == b'\n').count() as u64,
        column: (1 + fault.place - line_start) as u64,
        needed: 0,
    }
}
