//! Named terms on the proved library: the reference's answers and every lent byte and number; searches that answer the same
//! with and without names; and settings that stand for the models of the sheet as it was handed in, one to one.
//!
//! Inputs are generated from fixed seeds. Each test counts what came out, so that a generator that no longer reaches a
//! result or a refusal fails.

use nesskettle_reference::{self as reference, sheet_of, Operations, Reason, Refusal, Symmetry, Terms};
use nesskettle_trials::buffers::length_around;
use nesskettle_trials::checks::{check_find, check_read_back, check_write, Switches, OFF};
use nesskettle_trials::damage::damaged;
use nesskettle_trials::draft::{long_sheet, Draft, BROAD, LIMITS, SMALL};
use nesskettle_trials::fixed;
use nesskettle_trials::models::{outcome, satisfying, searched, CHOICES};
use nesskettle_trials::options::{not_asked, told, told_no};
use nesskettle_trials::problems;
use nesskettle_trials::random::Random;
use nesskettle_trials::tally::Tally;
use nesskettle_trials::truth::models;

const BOTH: [Operations; 2] = [nesskettle::OPERATIONS, reference::OPERATIONS];

/// Numbers that name terms, those that a narrower number would lose among them.
const NAMED: [u32; 7] = [1, 2, 255, 256, 65_536, 1 << 31, u32::MAX];

const SYMMETRIES: [Symmetry; 2] = [Symmetry::Kept, Symmetry::Reduced];

const BAD_SIZES: [u64; 5] = [0, 9, 258, (1 << 32) + 2, u64::MAX];

/// A sheet of any of the kinds, damaged now and then.
fn sheet(random: &mut Random) -> Vec<u8> {
    let draft = match random.below(12) {
        0 => fixed::around_limits(random),
        1 => fixed::around_helpers(random),
        2 => {
            let style = *random.pick(&[SMALL, BROAD, LIMITS]);
            Draft::random(random, style)
        }
        _ => fixed::ordinary(random),
    };
    let sheet = draft.sheet();
    if random.once_in(12) {
        damaged(random, &sheet)
    } else {
        sheet
    }
}

/// Terms are named, and no constant clauses are added.
const ON: Switches = Switches {
    named: NAMED[0],
    symmetry: 0,
};

/// Mostly a number that names terms.
fn named(random: &mut Random) -> u32 {
    if random.once_in(8) {
        OFF.named
    } else {
        *random.pick(&NAMED)
    }
}

/// A size at which the sheet with its names has at most so many instances; now and then a bad one, or a large one.
fn size(random: &mut Random, sheet: &[u8], instances: u64) -> u64 {
    if random.once_in(20) {
        return *random.pick(&BAD_SIZES);
    }
    if random.once_in(20) {
        return 8;
    }
    let mut size = random.between(1, 8).min(random.between(1, 8)) as u64;
    while size > 1
        && reference::instances_and_variables(sheet, size, not_asked(Terms::Named)).is_ok_and(|(i, _)| i > instances)
    {
        size -= 1;
    }
    size
}

fn needed_to_write(sheet: &[u8], size: u64) -> u64 {
    match reference::write(sheet, size, not_asked(Terms::Named), &mut []) {
        Err(refusal) if refusal.needed < 1_000_000 => refusal.needed,
        _ => 0,
    }
}

#[test]
fn clauses_are_written_alike() {
    let mut tally = Tally::default();
    let mut random = Random::new(90);
    for _ in 0..20_000 {
        let sheet = sheet(&mut random);
        let size = size(&mut random, &sheet, 3_000);
        let length = length_around(&mut random, needed_to_write(&sheet, size));
        let (named, symmetry) = (named(&mut random), 0);
        check_write(&mut tally, &sheet, size, Switches { named, symmetry }, length);
    }
    tally.covers(50, &["written", "2", "3", "4", "5", "6", "7", "8", "9", "11", "21"]);
}

#[test]
fn limits_of_clauses_are_met_alike() {
    let mut tally = Tally::default();
    let mut random = Random::new(91);
    for _ in 0..4_000 {
        let draft = if random.once_in(3) {
            fixed::around_helpers(&mut random)
        } else {
            fixed::around_limits(&mut random)
        };
        let sheet = draft.sheet();
        let needed = needed_to_write(&sheet, 1);
        check_write(&mut tally, &sheet, 1, ON, needed as usize);
        check_write(&mut tally, &sheet, 1, OFF, needed as usize);
    }
    tally.covers(200, &["written", "7", "11", "21"]);
    tally.covers(20, &["5", "6"]);
}

#[test]
fn long_lines_are_taken_alike() {
    let mut tally = Tally::default();
    let mut random = Random::new(92);
    for _ in 0..600 {
        let sheet = if random.once_in(6) {
            long_sheet(&mut random)
        } else {
            fixed::long_line(&mut random).sheet()
        };
        let needed = needed_to_write(&sheet, 1);
        check_write(&mut tally, &sheet, 1, ON, needed as usize);
    }
    tally.covers(50, &["written", "1", "7"]);
    tally.covers(10, &["5", "6"]);
}

/// A setting of the sheet with its names in which every function cell has one result.
fn setting(random: &mut Random, draft: &Draft, size: usize) -> Vec<u8> {
    let mut setting = draft.setting(random, size);
    let with_names = reference::instances_and_variables(&draft.sheet(), size as u64, not_asked(Terms::Named));
    let variables = with_names.map_or(0, |(_, variables)| variables as usize);
    while setting.len() < variables {
        let result = random.below(size);
        setting.extend((0..size).map(|d| (d == result) as u8));
    }
    setting
}

/// Other lengths, other bytes, other results: anywhere, or in the helpers' cells at the end.
fn damage(random: &mut Random, setting: &mut Vec<u8>, size: usize) {
    let from = if random.once_in(2) {
        setting.len().saturating_sub(2 * size)
    } else {
        0
    };
    let at = random.between(from, setting.len());
    match random.below(6) {
        0 => setting.insert(at, random.below(2) as u8),
        1 => setting.truncate(at),
        2 => setting.extend((0..size).map(|d| (d == 0) as u8)),
        _ if at == setting.len() => {}
        3 | 4 => setting[at] ^= 1,
        _ => setting[at] = *random.pick(&[2, 48, 49, 255]),
    }
}

#[test]
fn settings_are_read_back_alike() {
    let mut tally = Tally::default();
    let mut random = Random::new(93);
    for _ in 0..30_000 {
        let draft = match random.below(8) {
            0 => fixed::around_limits(&mut random),
            1 => fixed::around_helpers(&mut random),
            _ => fixed::ordinary(&mut random),
        };
        let sheet = draft.sheet();
        let size = size(&mut random, &sheet, 50_000);
        let shaped = if (1..=8).contains(&size) { size as usize } else { 1 };
        let mut setting = setting(&mut random, &draft, shaped);
        if random.once_in(3) {
            damage(&mut random, &mut setting, shaped);
        }
        let needed = reference::needed(&sheet, size, told_no(Terms::Named)).map_or(20, |(_, output)| output);
        let length = length_around(&mut random, needed);
        let named = named(&mut random);
        check_read_back(&mut tally, &sheet, size, named, &setting, length);
    }
    tally.covers(100, &["written", "5", "6", "7", "8", "11", "13", "14", "21"]);
}

#[test]
fn models_are_found_alike() {
    let mut tally = Tally::default();
    let mut random = Random::new(94);
    for _ in 0..20_000 {
        let sheet = sheet(&mut random);
        let high = size(&mut random, &sheet, 3_000);
        let low = match random.below(12) {
            0 => *random.pick(&BAD_SIZES),
            1 => high.wrapping_add(1),
            2..=5 => high,
            _ => 1,
        };
        let (work, output) = reference::needed(&sheet, high, told_no(Terms::Named)).unwrap_or((20, 20));
        let work = length_around(&mut random, work.min(1_000_000));
        let output = length_around(&mut random, output);
        let (named, symmetry) = (named(&mut random), 0);
        let switches = Switches { named, symmetry };
        check_find(&mut tally, &sheet, (low, high), switches, CHOICES, work, output);
    }
    tally.covers(50, &["found", "none", "2", "5", "6", "7", "8", "10", "11", "21"]);
    tally.covers(10, &["none, settled", "9"]);
}

/// Both searches, where neither is refused, answer the same and leave the same output, with constant clauses in both or none.
fn check_same(tally: &mut Tally, sheet: &[u8], low: u64, high: u64, symmetry: Symmetry) {
    for operations in BOTH {
        let search = |terms| searched(&operations, sheet, (low, high), told(terms, symmetry));
        let (Some(named), Some(written)) = (search(Terms::Named), search(Terms::AsWritten)) else {
            return tally.add("left out", 0);
        };
        let outcome = match (named, written) {
            (Ok(named), Ok(written)) => {
                let call = || {
                    format!(
                        "{}, {low} to {high}, {symmetry:?}\n{}",
                        operations.name,
                        String::from_utf8_lossy(sheet)
                    )
                };
                assert_eq!(named, written, "{}", call());
                outcome(named.0)
            }
            (Ok(_), Err(refusal)) => format!("named alone, not {}", refusal.reason.number()),
            (Err(refusal), Ok(_)) => format!("as written alone, not {}", refusal.reason.number()),
            (Err(_), Err(_)) => "refused both".to_string(),
        };
        tally.add(&outcome, 0);
    }
}

#[test]
fn searches_answer_the_same_with_and_without_names() {
    let mut tally = Tally::default();
    let mut random = Random::new(95);
    for _ in 0..12_000 {
        let sheet = match random.below(12) {
            0 => fixed::around_limits(&mut random).sheet(),
            1 => fixed::around_helpers(&mut random).sheet(),
            2 => Draft::random(&mut random, SMALL).sheet(),
            _ => fixed::ordinary(&mut random).sheet(),
        };
        let high = random.between(1, 8).min(random.between(1, 4)) as u64;
        let low = if random.once_in(3) {
            random.between(1, high as usize) as u64
        } else {
            1
        };
        let symmetry = *random.pick(&SYMMETRIES);
        check_same(&mut tally, &sheet, low, high, symmetry);
    }
    for (problem, symmetry) in problems::ALL
        .iter()
        .flat_map(|p| SYMMETRIES.map(|symmetry| (p, symmetry)))
    {
        (1..=4).for_each(|high| check_same(&mut tally, problem.sheet, 1, high, symmetry));
    }
    tally.covers(100, &["found at 1", "found at 2", "none", "named alone, not 7"]);
    tally.covers(
        20,
        &[
            "found at 3",
            "none, settled",
            "as written alone, not 7",
            "as written alone, not 21",
        ],
    );
}

/// Every setting that satisfies the clauses is read back as a model of the sheet, each model from exactly one.
#[test]
fn the_settings_that_satisfy_are_the_models() {
    for operations in BOTH {
        let mut tally = Tally::default();
        let mut random = Random::new(96);
        for _ in 0..300 {
            let draft = fixed::tiny(&mut random);
            let (sheet, size) = (draft.sheet(), random.between(1, 2) as u64);
            let counts = reference::instances_and_variables(&sheet, size, not_asked(Terms::Named));
            let variables = match counts {
                Ok((_, variables)) if variables <= 16 => variables,
                Ok(_) => continue,
                Err(refusal) => {
                    tally.add("", refusal.reason.number());
                    continue;
                }
            };
            let cases = satisfying(&operations, &sheet, size, not_asked(Terms::Named));
            assert_eq!(
                cases,
                models(&draft, size as usize),
                "{}",
                String::from_utf8_lossy(&sheet)
            );
            let helpers = (variables - draft.variables(size as usize) as u64) / size;
            tally.add(&format!("helpers: {helpers}"), 0);
            tally.add(if cases.is_empty() { "no model" } else { "models" }, 0);
        }
        tally.covers(
            10,
            &[
                "models",
                "no model",
                "helpers: 0",
                "helpers: 1",
                "helpers: 2",
                "helpers: 3",
            ],
        );
    }
}

/// Sheet numbers with limit 7 of this mode, then 21, then 8, 9, 10, 11 or 8, 13, 14, 11.
#[test]
fn refusals_come_in_their_order() {
    let term = |i: usize| format!("g c{} c{}", i / 6, i % 6);
    let constants: Vec<String> = (0..6).map(|i| format!("c{i}/0")).collect();
    let functions: Vec<&str> = constants.iter().map(String::as_str).chain(["g/2", "f/1"]).collect();
    let sheet = |count: usize, more: &[&str]| {
        let clauses: Vec<String> = (0..count).map(|i| format!("+ p {}", term(i))).collect();
        let clauses: Vec<&str> = clauses.iter().map(String::as_str).chain(more.iter().copied()).collect();
        sheet_of(&functions, &["p/1"], &clauses)
    };
    let too_deep = format!("+ p {}c0", "f ".repeat(10));
    for operations in BOTH {
        let write =
            |sheet: &[u8], size: u64| (operations.write)(sheet, size, not_asked(Terms::Named), &mut []).map(|_| ());
        let back =
            |sheet: &[u8], size: u64| (operations.read_back)(sheet, size, Terms::Named, &[2], &mut []).map(|_| ());
        let find = |sheet: &[u8], high: u64| {
            (operations.find)(sheet, 1, high, told_no(Terms::Named), &mut [], &mut []).map(|_| ())
        };
        let reason = |answer: Result<(), Refusal>| {
            let refusal = answer.expect_err("it is refused");
            (refusal.reason, refusal.line, refusal.column)
        };
        for (sheet, size, expected) in [
            (sheet(33, &[&too_deep]), 9, (Reason::ClauseTooLarge, 47, 1)),
            (sheet(33, &["+ p x"]), 9, (Reason::UnknownWord, 47, 12)),
            (sheet(33, &[]), 9, (Reason::TooManyHelpers, 0, 0)),
            (sheet(33, &[]), 8, (Reason::TooManyHelpers, 0, 0)),
            (sheet(32, &[]), 9, (Reason::BadSize, 0, 0)),
            (sheet(32, &["- p g c0 c0"]), 0, (Reason::BadSize, 0, 0)),
        ] {
            assert_eq!(reason(write(&sheet, size)), expected);
            assert_eq!(reason(back(&sheet, size)), expected);
            assert_eq!(reason(find(&sheet, size)), expected);
        }
        assert_eq!(reason(back(&sheet(32, &[]), 8)), (Reason::BadSetting, 0, 0));
        assert_eq!(reason(find(&sheet(32, &[]), 8)), (Reason::WorkTooShort, 0, 0));
        let deep = sheet_of(&["a/0", "f/1"], &["p/1"], &[&format!("+ p {}a", "f ".repeat(9))]);
        assert_eq!(reason(write(&deep, 4)), (Reason::TooManyInstances, 0, 0));
        assert_eq!(reason(find(&deep, 4)), (Reason::TooManyInstances, 0, 0));
        assert_eq!(reason(write(&deep, 3)), (Reason::OutputTooShort, 0, 0));
    }
}
