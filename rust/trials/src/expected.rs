//! What the C interface must answer where the reference answers this.

use nesskettle::raw::{FindAnswer, MergeAnswer, WriteAnswer};
use nesskettle_reference::{MergeRefusal, Refusal, Search, WhichSheet};

/// The answer of a search, and how many bytes it writes.
pub fn search(answer: Result<Search, Refusal>) -> (FindAnswer, usize) {
    let nothing = FindAnswer {
        outcome: 0,
        reason: 0,
        line: 0,
        column: 0,
        size: 0,
        length: 0,
        choices: 0,
        settled: 0,
    };
    match answer {
        Err(refusal) => {
            let refused = FindAnswer {
                reason: refusal.reason.number(),
                line: refusal.line,
                column: refusal.column,
                length: refusal.needed,
                ..nothing
            };
            (refused, 0)
        }
        Ok(Search::Found { size, length, choices }) => {
            let found = FindAnswer {
                outcome: 1,
                size,
                length: length as u64,
                choices,
                ..nothing
            };
            (found, length)
        }
        Ok(Search::None { settled, choices }) => {
            let none = FindAnswer {
                outcome: 2,
                settled: settled as u32,
                choices,
                ..nothing
            };
            (none, 0)
        }
        Ok(Search::Stopped { size, choices }) => {
            let stopped = FindAnswer {
                outcome: 3,
                size,
                choices,
                ..nothing
            };
            (stopped, 0)
        }
    }
}

/// The answer of a call that writes a text, and the text.
pub fn text(answer: Result<usize, Refusal>, output: &[u8]) -> (WriteAnswer, &[u8]) {
    match answer {
        Err(refusal) => (
            WriteAnswer {
                outcome: 0,
                reason: refusal.reason.number(),
                line: refusal.line,
                column: refusal.column,
                length: refusal.needed,
            },
            &[],
        ),
        Ok(n) => (
            WriteAnswer {
                outcome: 1,
                reason: 0,
                line: 0,
                column: 0,
                length: n as u64,
            },
            &output[..n],
        ),
    }
}

/// The answer of a merge, and the sheet.
pub fn merged(answer: Result<usize, MergeRefusal>, output: &[u8]) -> (MergeAnswer, &[u8]) {
    let sheet = answer.err().and_then(|merge| merge.sheet);
    let (written, front) = text(answer.map_err(|merge| merge.refusal), output);
    let merged = MergeAnswer {
        outcome: written.outcome,
        reason: written.reason,
        line: written.line,
        column: written.column,
        length: written.length,
        sheet: sheet.map_or(0, WhichSheet::number),
    };
    (merged, front)
}

/// An outcome of a search in words, for a tally.
pub fn outcome(answer: &FindAnswer) -> &'static str {
    match (answer.outcome, answer.settled) {
        (1, _) => "found",
        (3, _) => "stopped",
        (_, 1) => "none, settled",
        _ => "none",
    }
}
