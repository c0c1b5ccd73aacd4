//! Models of generated sheets: as searches with few choices find them, and as all settings that satisfy the clauses.

use crate::buffers::left;
use crate::dimacs::Dimacs;
use crate::options::told_no;
use nesskettle_reference::{find, needed, FindOptions, Operations, Refusal, Search, Terms, WriteOptions};
use std::collections::BTreeSet;

/// What generated searches are allowed.
pub const CHOICES: u64 = 2_000;

/// Searches that need more work than this are left out where the reference makes them too.
const WORK: u64 = 100_000;

/// A model of the sheet with up to three elements, if one is found quickly.
pub fn small_model(sheet: &[u8]) -> Option<Vec<u8>> {
    let options = with_few_choices(told_no(Terms::AsWritten));
    let (work, output) = needed(sheet, 3, options).ok()?;
    let mut work = vec![0; work.min(WORK) as usize];
    let mut output = vec![0; output as usize];
    match find(sheet, 1, 3, options, &mut work, &mut output) {
        Ok(Search::Found { length, .. }) => Some(output[..length].to_vec()),
        _ => None,
    }
}

/// The options with an allowance that is soon used up.
pub fn with_few_choices(options: FindOptions) -> FindOptions {
    FindOptions {
        allowance: CHOICES,
        ..options
    }
}

/// An answer, its number of choices left out, and the output after it.
pub type Searched = (Search, Vec<u8>);

/// What a search answers and leaves, with few choices and just the room that it needs; the refusal where it is not taken.
/// Nothing where it is too large, or stopped.
pub fn searched(
    operations: &Operations,
    sheet: &[u8],
    (low, high): (u64, u64),
    options: FindOptions,
) -> Option<Result<Searched, Refusal>> {
    let (work, output) = match needed(sheet, high, options) {
        Ok((work, output)) if work < WORK => (work as usize, output as usize),
        Ok(_) => return None,
        Err(_) => (0, 0),
    };
    let (mut work, mut output) = (vec![7; work], vec![7; output]);
    match (operations.find)(sheet, low, high, with_few_choices(options), &mut work, &mut output) {
        Ok(Search::Stopped { .. }) => None,
        search => Some(search.map(|search| (search.with_choices(0), output))),
    }
}

/// What a search came to, for a tally.
pub fn outcome(search: Search) -> String {
    match search {
        Search::Found { size, .. } => format!("found at {size}"),
        Search::None { settled: true, .. } => "none, settled".to_string(),
        Search::None { settled: false, .. } => "none".to_string(),
        Search::Stopped { size, .. } => format!("stopped at {size}"),
    }
}

/// The cases to which the settings that satisfy the written clauses are read back, each from one setting alone. All settings
/// are tried.
pub fn satisfying(operations: &Operations, sheet: &[u8], size: u64, options: WriteOptions) -> BTreeSet<Vec<u8>> {
    let text = left(|output| (operations.write)(sheet, size, options, output)).expect("it is written");
    let dimacs = Dimacs::new(text);
    let clauses = dimacs.masks();
    let satisfies = |setting: &u32| clauses.iter().all(|(yes, no)| setting & yes | !setting & no != 0);
    let mut cases = BTreeSet::new();
    for setting in (0..1 << dimacs.variables).filter(satisfies) {
        let bytes: Vec<u8> = (0..dimacs.variables).map(|n| (setting >> n & 1) as u8).collect();
        let case = left(|output| (operations.read_back)(sheet, size, options.terms, &bytes, output));
        assert!(
            cases.insert(case.expect("it is read back")),
            "a case is read back twice"
        );
    }
    cases
}
