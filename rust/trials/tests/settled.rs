//! What settled means, tried on generated sheets: where none is settled, no larger size has a model either.

use nesskettle_reference::{self as reference, sheet_of, Operations, Reason, Search, Symmetry, Terms, WriteOptions};
use nesskettle_trials::draft::{Draft, SMALL};
use nesskettle_trials::models::with_few_choices;
use nesskettle_trials::options::told;
use nesskettle_trials::random::Random;
use nesskettle_trials::tally::Tally;

const BOTH: [Operations; 2] = [nesskettle::OPERATIONS, reference::OPERATIONS];

/// Sizes with more instances are left out.
const INSTANCES: u64 = 5_000;

/// The plain search may try every case: so many variables have at most 16,384.
const VARIABLES: usize = 14;

/// A problem without functions that take arguments.
fn draft_of_constants(random: &mut Random) -> Draft {
    let draft = Draft::random(random, SMALL);
    if draft.functions.iter().any(|f| f.arity > 0) {
        return draft_of_constants(random);
    }
    draft
}

/// The sheet of one, and the number of its constants.
fn sheet_of_constants(random: &mut Random) -> (Vec<u8>, u64) {
    let draft = draft_of_constants(random);
    (draft.sheet(), draft.functions.len() as u64)
}

/// The searches that are tried: of both implementations, with and without constant clauses.
fn searches() -> impl Iterator<Item = (Operations, Symmetry)> {
    let both = |operations| [Symmetry::Kept, Symmetry::Reduced].map(|symmetry| (operations, symmetry));
    BOTH.into_iter().flat_map(both)
}

/// The search, if it needs few choices.
fn find((operations, symmetry): &(Operations, Symmetry), sheet: &[u8], low: u64, high: u64) -> Option<Search> {
    let terms = Terms::AsWritten;
    let symmetry = *symmetry;
    let options = with_few_choices(told(terms, symmetry));
    let (instances, _) = reference::instances_and_variables(sheet, high, WriteOptions { terms, symmetry }).ok()?;
    let (work, output) = reference::needed(sheet, high, options).ok()?;
    if instances > INSTANCES {
        return None;
    }
    let (mut work, mut output) = (vec![0; work as usize], vec![0; output as usize]);
    let search = (operations.find)(sheet, low, high, options, &mut work, &mut output);
    let search = search.expect("the room is enough");
    (!matches!(search, Search::Stopped { .. })).then_some(search)
}

#[test]
fn a_settled_none_is_none_at_every_size() {
    for search in searches() {
        let mut tally = Tally::default();
        let mut random = Random::new(60);
        for _ in 0..5_000 {
            let (sheet, constants) = sheet_of_constants(&mut random);
            let high = constants.max(1);
            let Some(Search::None { settled, .. }) = find(&search, &sheet, 1, high) else {
                continue;
            };
            assert!(settled);
            tally.add(&format!("none, constants: {constants}"), 0);
            for size in high + 1..=8 {
                let larger = find(&search, &sheet, size, size);
                assert!(!matches!(larger, Some(Search::Found { .. })));
                tally.add(
                    if larger.is_some() {
                        "none of a larger size"
                    } else {
                        "left out"
                    },
                    0,
                );
            }
        }
        tally.covers(
            100,
            &[
                "none, constants: 0",
                "none, constants: 1",
                "none, constants: 2",
                "none, constants: 3",
            ],
        );
        tally.covers(5_000, &["none of a larger size"]);
    }
}

/// One size less than there are constants is not enough for most sheets, and a search that begins later settles nothing.
#[test]
fn a_model_may_stand_beside_an_unsettled_none() {
    for search in searches() {
        let mut tally = Tally::default();
        let mut random = Random::new(61);
        for _ in 0..5_000 {
            let (sheet, constants) = sheet_of_constants(&mut random);
            let (low, high) = match random.below(2) {
                0 if constants > 1 => (1, constants - 1),
                _ => (constants + 1, constants + 2),
            };
            let Some(Search::None { settled, .. }) = find(&search, &sheet, low, high) else {
                continue;
            };
            assert_eq!(settled, low == 1 && high >= constants);
            let whole = find(&search, &sheet, 1, constants.max(1));
            if matches!(whole, Some(Search::Found { .. })) {
                assert!(!settled);
                tally.add(if low == 1 { "a larger model" } else { "a smaller model" }, 0);
            }
        }
        tally.covers(20, &["a larger model", "a smaller model"]);
    }
}

/// The plain search from low to high, if it has few cases.
fn find_plain(operations: &Operations, draft: &Draft, low: u64, high: u64) -> Option<Search> {
    if draft.variables(high as usize) > VARIABLES {
        return None;
    }
    let mut output = vec![0; 1_000];
    let search = (operations.find_plain)(&draft.sheet(), low, high, &mut output);
    Some(search.expect("the room is enough"))
}

#[test]
fn a_settled_none_of_the_plain_search_is_none_at_every_size() {
    for operations in BOTH {
        let mut tally = Tally::default();
        let mut random = Random::new(62);
        for _ in 0..5_000 {
            let draft = draft_of_constants(&mut random);
            let high = (draft.functions.len() as u64).max(1);
            let Some(Search::None { settled, .. }) = find_plain(&operations, &draft, 1, high) else {
                continue;
            };
            assert!(settled);
            tally.add("none", 0);
            for size in high + 1..=8 {
                if let Some(larger) = find_plain(&operations, &draft, size, size) {
                    assert!(matches!(larger, Search::None { .. }));
                    tally.add("none of a larger size", 0);
                }
            }
        }
        tally.covers(500, &["none", "none of a larger size"]);
    }
}

/// Find refuses this sheet for its instances; the plain search says none, and settled.
#[test]
fn the_plain_search_settles_what_find_refuses() {
    let every = "+ p A + p B + p C + p D + p E + p F + p G + p H";
    let sheet = sheet_of(&[], &["p/1"], &["- p A", every]);
    for operations in BOTH {
        let (mut work, mut output) = (vec![0; 1_000], vec![0; 1_000]);
        let options = told(Terms::AsWritten, Symmetry::Kept);
        let refused = (operations.find)(&sheet, 1, 8, options, &mut work, &mut output);
        assert_eq!(refused.unwrap_err().reason, Reason::TooManyInstances);
        let plain = (operations.find_plain)(&sheet, 1, 8, &mut output);
        assert!(matches!(plain, Ok(Search::None { settled: true, .. })));
    }
}
