//! An allowance of choices on the proved library: the reference's answers and every lent byte and number; the number of a plainly
//! written walk; and where a search is stopped: exactly if it needs one choice more, while no larger allowance changes another
//! answer.
//!
//! Inputs are generated from fixed seeds. Each test counts what came out, so that a generator that no longer reaches a
//! result or a refusal fails.

use nesskettle_reference::{self as reference, FindOptions, Operations, Search, Symmetry, Terms, WriteOptions};
use nesskettle_trials::buffers::{left, length_around};
use nesskettle_trials::checks::{check_find, text, Switches};
use nesskettle_trials::constants;
use nesskettle_trials::damage::damaged;
use nesskettle_trials::dimacs::Dimacs;
use nesskettle_trials::draft::{Draft, BROAD, SMALL};
use nesskettle_trials::fixed;
use nesskettle_trials::models::outcome;
use nesskettle_trials::options::told;
use nesskettle_trials::problems;
use nesskettle_trials::random::Random;
use nesskettle_trials::tally::Tally;
use nesskettle_trials::walk::Walk;

const BOTH: [Operations; 2] = [nesskettle::OPERATIONS, reference::OPERATIONS];

const LARGEST: u64 = FindOptions::LARGEST_ALLOWANCE;

/// Allowances that no call takes, those that a narrower number would take among them.
const TOO_LARGE: [u64; 6] = [LARGEST + 1, 9_999_999, 1 << 32, (1 << 32) + 3, 1 << 63, u64::MAX];

/// Walks through more clauses, or of more choices, are left out.
const INSTANCES: u64 = 400;
const CHOICES: u64 = 150;

fn draft(random: &mut Random) -> Draft {
    match random.below(6) {
        0 => Draft::random(random, BROAD),
        1 => fixed::ordinary(random),
        2 | 3 => constants::ordinary(random),
        _ => Draft::random(random, SMALL),
    }
}

/// With and without names and constant clauses.
fn switches(random: &mut Random) -> Switches {
    let mut number = || *random.pick(&[0, 0, 1, 256]);
    Switches {
        named: number(),
        symmetry: number(),
    }
}

/// Few instances at high, and mostly several sizes.
fn sizes(random: &mut Random, sheet: &[u8], options: WriteOptions, instances: u64) -> (u64, u64) {
    let mut high = random.between(1, 8).min(random.between(1, 5)) as u64;
    while high > 1 && reference::instances_and_variables(sheet, high, options).is_ok_and(|(i, _)| i > instances) {
        high -= 1;
    }
    let low = if random.once_in(4) {
        random.between(1, high as usize) as u64
    } else {
        1
    };
    (low, high)
}

fn allowance(random: &mut Random) -> u64 {
    match random.below(10) {
        0 => *random.pick(&TOO_LARGE),
        1 => 2_000,
        2..=4 => random.between(0, 100) as u64,
        _ => random.between(0, 10) as u64,
    }
}

#[test]
fn searches_are_stopped_alike() {
    let mut tally = Tally::default();
    let mut random = Random::new(120);
    for _ in 0..20_000 {
        let mut sheet = draft(&mut random).sheet();
        if random.once_in(20) {
            sheet = damaged(&mut random, &sheet);
        }
        let switches = switches(&mut random);
        let (low, mut high) = sizes(&mut random, &sheet, switches.write_options(), 3_000);
        if random.once_in(20) {
            high = *random.pick(&[0, 8, 9, u64::MAX]);
        }
        let (work, output) = reference::needed(&sheet, high, switches.find_options()).unwrap_or((20, 20));
        let work = length_around(&mut random, work.min(1_000_000));
        let output = length_around(&mut random, output);
        let allowance = allowance(&mut random);
        check_find(&mut tally, &sheet, (low, high), switches, allowance, work, output);
    }
    tally.covers(500, &["found", "none", "stopped", "10", "11", "24"]);
    tally.covers(50, &["none, settled", "2", "8"]);
    tally.covers(10, &["7", "9"]);
}

/// What each size comes to by the plainly written walk through the library's own clauses: whether there is a model, and how many
/// choices were made, up to the first size that has one. Nothing where a walk is too long.
fn walked(draft: &Draft, (low, high): (u64, u64), options: WriteOptions) -> Option<Vec<(bool, u64)>> {
    let sheet = draft.sheet();
    let mut sizes = Vec::new();
    for size in low..=high {
        let (instances, _) = reference::instances_and_variables(&sheet, size, options).ok()?;
        if instances > INSTANCES {
            return None;
        }
        let clauses = Dimacs::new(left(|output| nesskettle::write(&sheet, size, options, output)).ok()?);
        let walk = Walk::new(draft, size as usize, &clauses, CHOICES).walked()?;
        sizes.push(walk);
        if walk.0 {
            break;
        }
    }
    Some(sizes)
}

/// A search with just the room that it needs: what it answers, and what is left in the output. The work must be cleared.
fn searched(operations: &Operations, sheet: &[u8], (low, high): (u64, u64), options: FindOptions) -> (Search, Vec<u8>) {
    let (work, output) = reference::needed(sheet, high, options).expect("it is a sheet");
    let (mut work, mut output) = (vec![7; work as usize], vec![7; output as usize]);
    let search = (operations.find)(sheet, low, high, options, &mut work, &mut output);
    assert!(work.iter().all(|&n| n == 0));
    (search.expect("the room is enough"), output)
}

/// Allowances from all sides of the sums of choices up to each size.
fn allowances(random: &mut Random, sums: &[u64]) -> Vec<u64> {
    let total = *sums.last().expect("a size is searched");
    let mut allowances = vec![0, total + 1 + random.below(1_000) as u64, LARGEST];
    allowances.push(random.between(0, total as usize) as u64);
    allowances.extend(sums.iter().flat_map(|&sum| [sum.saturating_sub(1), sum, sum + 1]));
    allowances
}

/// Every allowance gives what the walk says: the answer of the whole search with its number; or stopped, with the allowance
/// made and the output untouched, at the first size with which more choices are needed.
fn check_allowances(tally: &mut Tally, random: &mut Random, draft: &Draft, terms: Terms, symmetry: Symmetry) {
    let sheet = draft.sheet();
    let options = WriteOptions { terms, symmetry };
    let sizes = sizes(random, &sheet, options, INSTANCES);
    let Some(walked) = walked(draft, sizes, options) else {
        return tally.add("left out", 0);
    };
    let sums: Vec<u64> = walked
        .iter()
        .scan(0, |sum, (_, choices)| {
            *sum += choices;
            Some(*sum)
        })
        .collect();
    let total = *sums.last().expect("a size is searched");
    let model = walked.iter().position(|(is_model, _)| *is_model);
    let allowances = allowances(random, &sums);
    for operations in BOTH {
        let call = || format!("{}, {sizes:?}, {options:?}\n{}", operations.name, text(&sheet));
        let whole = searched(&operations, &sheet, sizes, told(terms, symmetry));
        assert_eq!(whole.0.choices(), total, "{}", call());
        let found = match whole.0 {
            Search::Found { size, .. } => Some((size - sizes.0) as usize),
            Search::None { .. } => None,
            Search::Stopped { .. } => panic!("stopped: {}", call()),
        };
        assert_eq!(found, model, "{}", call());
        for &allowance in &allowances {
            let options = FindOptions {
                allowance,
                ..told(terms, symmetry)
            };
            let answer = searched(&operations, &sheet, sizes, options);
            let expected = match sums.iter().position(|&sum| sum > allowance) {
                None => whole.clone(),
                Some(place) => {
                    let (size, choices) = (sizes.0 + place as u64, allowance);
                    (Search::Stopped { size, choices }, vec![7; answer.1.len()])
                }
            };
            assert_eq!(answer, expected, "allowance {allowance}: {}", call());
            tally.add(&outcome(answer.0), 0);
        }
    }
    tally.add(&format!("walks of {terms:?}, {symmetry:?}"), 0);
    tally.add(if total == 0 { "no choice" } else { "choices" }, 0);
}

#[test]
fn a_search_is_stopped_exactly_if_one_more_choice_is_needed() {
    let mut tally = Tally::default();
    let mut random = Random::new(121);
    for _ in 0..4_000 {
        let draft = draft(&mut random);
        let terms = *random.pick(&[Terms::AsWritten, Terms::Named]);
        let symmetry = *random.pick(&[Symmetry::Kept, Symmetry::Reduced]);
        check_allowances(&mut tally, &mut random, &draft, terms, symmetry);
    }
    tally.covers(
        500,
        &["found at 1", "found at 2", "none", "stopped at 1", "stopped at 2"],
    );
    tally.covers(
        100,
        &["found at 3", "none, settled", "stopped at 3", "no choice", "choices"],
    );
    tally.covers(
        100,
        &[
            "walks of AsWritten, Kept",
            "walks of AsWritten, Reduced",
            "walks of Named, Kept",
            "walks of Named, Reduced",
        ],
    );
}

/// Allowances that double: as long as the search is stopped, its size does not fall; once it is not, it answers the same with
/// all larger ones.
#[test]
fn a_larger_allowance_changes_no_answer() {
    const MOST: u64 = 1 << 15;
    let mut tally = Tally::default();
    for (problem, symmetry) in problems::ALL
        .iter()
        .flat_map(|p| [Symmetry::Kept, Symmetry::Reduced].map(|symmetry| (p, symmetry)))
    {
        for (operations, high) in BOTH.into_iter().flat_map(|o| [3, 5].map(|high| (o, high))) {
            let mut last = (1, None);
            let doubling = std::iter::successors(Some(1), |n| (2 * n <= MOST).then_some(2 * n));
            for allowance in std::iter::once(0).chain(doubling) {
                let options = FindOptions {
                    allowance,
                    ..told(Terms::AsWritten, symmetry)
                };
                let answer = searched(&operations, problem.sheet, (1, high), options);
                tally.add(&outcome(answer.0), 0);
                last = match (last, answer.0) {
                    ((size, None), Search::Stopped { size: stopped, choices }) => {
                        assert!(size <= stopped && choices == allowance, "{} {allowance}", problem.name);
                        (stopped, None)
                    }
                    ((size, None), _) => (size, Some(answer)),
                    ((size, Some(before)), _) => {
                        assert_eq!(answer, before, "{} {allowance}", problem.name);
                        (size, Some(before))
                    }
                };
            }
        }
    }
    tally.covers(
        10,
        &["stopped at 2", "stopped at 3", "stopped at 4", "stopped at 5", "none"],
    );
    tally.covers(10, &["found at 2"]);
}
