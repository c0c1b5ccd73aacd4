//! Clauses about as long as they may be, put together from literals.

use nesskettle_reference::sheet_of;

const MOST_WORDS: usize = 64;
const MOST_LITERALS: usize = 16;
/// Of a sheet.
const MOST_BYTES: usize = 16_384;

/// The front, as many of the middle as there is room for, the back.
pub fn clause(front: &[&str], middle: &str, back: &str) -> String {
    let words = |parts: &[&str]| parts.iter().map(|part| part.split(' ').count()).sum::<usize>();
    let mut parts = front.to_vec();
    while parts.len() + 2 <= MOST_LITERALS && words(&parts) + words(&[middle, back]) <= MOST_WORDS {
        parts.push(middle);
    }
    parts.push(back);
    parts.join(" ")
}

/// A sheet with this clause as often as it may be, at most `most` times; nothing where it is refused.
pub fn sheet_with(functions: &[&str], predicates: &[&str], clause: &str, most: usize) -> Option<Vec<u8>> {
    // the count of clauses may have a second digit
    let without = sheet_of(functions, predicates, &[]).len() + 1;
    let room = (MOST_BYTES - without) / ("clause=\n".len() + clause.len());
    let sheet = sheet_of(functions, predicates, &vec![clause; most.min(room)]);
    nesskettle::read(&sheet).is_ok().then_some(sheet)
}

pub fn strs(lines: &[String]) -> Vec<&str> {
    lines.iter().map(String::as_str).collect()
}
