//! A search that was stopped, for people: what is known then, and how to go on.

use crate::find::no_model;
use nesskettle::{FindOptions, Symmetry, Terms};

/// At which size, and what is known of the sizes before.
pub fn in_words(low: u64, size: u64) -> String {
    let mut text = format!("stopped: more choices are needed at size {size} than are allowed\n");
    if size > low {
        text += &format!("{}\n", no_model(low, size - 1));
    }
    text
}

/// The same in short, and which calls go on from there.
pub fn how_to_go_on(low: u64, size: u64, options: FindOptions) -> String {
    let FindOptions {
        terms,
        symmetry,
        allowance,
    } = options;
    const LARGEST: u64 = FindOptions::LARGEST_ALLOWANCE;
    let mut lines = vec![format!(
        "stopped at size {size}: one choice more is needed than the allowance of {allowance}"
    )];
    if size > low {
        lines.push(no_model(low, size - 1));
    }
    match (size > low, allowance < LARGEST) {
        (true, true) => lines.push(format!("--low {size} --allow N goes on from there, N up to {LARGEST}")),
        (true, false) => lines.push(format!("--low {size} goes on from there with as many choices again")),
        (false, true) => lines.push(format!("--allow N allows more, N up to {LARGEST}")),
        (false, false) => {}
    }
    if symmetry == Symmetry::Kept {
        lines.push("without --no-symmetry fewer choices are often enough".to_string());
    }
    if terms == Terms::AsWritten {
        lines.push(solver(size));
    }
    lines.join("\n  ")
}

/// The pipe through a SAT solver. Its answer is read for terms as they are written alone.
fn solver(size: u64) -> String {
    format!(
        "a SAT solver may be faster: nesskettle clauses SHEET --size {size} --symmetry | cadical -q |\n      \
         nesskettle from-solver SHEET --size {size} -"
    )
}
