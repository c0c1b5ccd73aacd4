//! Constant clauses on the proved library: the reference's answers and every lent byte and number; searches that come to the
//! same with and without them; and on small sheets, where every case can be tried, that every model has a renumbering that
//! obeys them, and that the least of those that do is found.
//!
//! Inputs are generated from fixed seeds. Each test counts what came out, so that a generator that no longer reaches a
//! result or a refusal fails.

use nesskettle_reference::{self as reference, sheet_of, MAX_INSTANCES};
use nesskettle_reference::{Operations, Reason, Search, Terms, WriteOptions};
use nesskettle_trials::buffers::{left, length_around};
use nesskettle_trials::checks::{check_find, check_write, text, Switches};
use nesskettle_trials::constants;
use nesskettle_trials::damage::damaged;
use nesskettle_trials::dimacs::Dimacs;
use nesskettle_trials::draft::{Draft, BROAD, SMALL};
use nesskettle_trials::fixed;
use nesskettle_trials::models::{satisfying, searched, Searched, CHOICES};
use nesskettle_trials::options::{asked, not_asked, told_no, told_yes};
use nesskettle_trials::problems;
use nesskettle_trials::random::Random;
use nesskettle_trials::renumbering::{obeys, rearrangements, renumbered};
use nesskettle_trials::tally::Tally;
use nesskettle_trials::truth::{cell_values, is_model, models};
use std::collections::BTreeSet;

const BOTH: [Operations; 2] = [nesskettle::OPERATIONS, reference::OPERATIONS];

const BOTH_TERMS: [Terms; 2] = [Terms::AsWritten, Terms::Named];

/// Numbers that switch something on, those that a narrower number would lose among them.
const ON: [u32; 7] = [1, 2, 255, 256, 65_536, 1 << 31, u32::MAX];

const BAD_SIZES: [u64; 5] = [0, 9, 258, (1 << 32) + 2, u64::MAX];

/// The most cases that are all tried.
const CASES: usize = 500;

fn draft(random: &mut Random) -> Draft {
    match random.below(8) {
        0 => Draft::random(random, BROAD),
        1 => Draft::random(random, SMALL),
        2 => fixed::ordinary(random),
        3 => fixed::around_helpers(random),
        _ => constants::ordinary(random),
    }
}

/// A sheet of any of the kinds, damaged now and then.
fn sheet(random: &mut Random) -> Vec<u8> {
    let sheet = draft(random).sheet();
    if random.once_in(15) {
        damaged(random, &sheet)
    } else {
        sheet
    }
}

/// Mostly with constant clauses, with and without names.
fn switches(random: &mut Random) -> Switches {
    let mut on_but_once_in = |times: usize| if random.once_in(times) { 0 } else { *random.pick(&ON) };
    Switches {
        named: on_but_once_in(2),
        symmetry: on_but_once_in(8),
    }
}

/// A size at which the sheet has at most so many instances; now and then a bad one, or a large one.
fn size(random: &mut Random, sheet: &[u8], options: WriteOptions, instances: u64) -> u64 {
    match random.below(20) {
        0 => return *random.pick(&BAD_SIZES),
        1 => return 8,
        _ => {}
    }
    let mut size = random.between(1, 8).min(random.between(1, 8)) as u64;
    while size > 1 && reference::instances_and_variables(sheet, size, options).is_ok_and(|(i, _)| i > instances) {
        size -= 1;
    }
    size
}

#[test]
fn clauses_are_written_alike() {
    let mut tally = Tally::default();
    let mut random = Random::new(100);
    for _ in 0..15_000 {
        let (sheet, switches) = (sheet(&mut random), switches(&mut random));
        let options = switches.write_options();
        let size = size(&mut random, &sheet, options, 3_000);
        let needed = match reference::write(&sheet, size, options, &mut []) {
            Err(refusal) if refusal.needed < 1_000_000 => refusal.needed,
            _ => 0,
        };
        let length = length_around(&mut random, needed);
        check_write(&mut tally, &sheet, size, switches, length);
    }
    tally.covers(50, &["written", "2", "8", "11", "21"]);
    tally.covers(10, &["4", "5", "6", "9"]);
}

#[test]
fn models_are_found_alike() {
    let mut tally = Tally::default();
    let mut random = Random::new(101);
    for _ in 0..15_000 {
        let (sheet, switches) = (sheet(&mut random), switches(&mut random));
        let high = size(&mut random, &sheet, switches.write_options(), 3_000);
        let low = match random.below(12) {
            0 => *random.pick(&BAD_SIZES),
            1 => high.wrapping_add(1),
            2..=5 => high,
            _ => 1,
        };
        let (work, output) = reference::needed(&sheet, high, switches.find_options()).unwrap_or((20, 20));
        let work = length_around(&mut random, work.min(1_000_000));
        let output = length_around(&mut random, output);
        check_find(&mut tally, &sheet, (low, high), switches, CHOICES, work, output);
    }
    tally.covers(50, &["found", "none", "none, settled", "2", "8", "10", "11", "21"]);
    tally.covers(10, &["5", "6", "9"]);
}

/// The constant clauses are one piece more, and it stands after the clauses of the function cells.
#[test]
fn the_other_clauses_stay_as_they_are() {
    let mut tally = Tally::default();
    let mut random = Random::new(102);
    for _ in 0..2_000 {
        let (draft, size) = (draft(&mut random), random.between(1, 5));
        let (sheet, terms) = (draft.sheet(), *random.pick(&BOTH_TERMS));
        let counts = reference::instances_and_variables(&sheet, size as u64, asked(terms));
        if counts.is_ok_and(|(instances, _)| instances > 3_000) {
            continue;
        }
        for operations in BOTH {
            let clauses =
                |options| left(|output| (operations.write)(&sheet, size as u64, options, output)).map(Dimacs::new);
            let (Ok(with), Ok(without)) = (clauses(asked(terms)), clauses(not_asked(terms))) else {
                tally.add("refused", 0);
                continue;
            };
            assert_eq!(with.variables, without.variables);
            let helpers = (with.variables - draft.variables(size)) / size;
            let tables = draft.functions.iter().map(|f| size.pow(f.arity as u32));
            let cells = tables.sum::<usize>() + helpers;
            let before = cells * (1 + size * (size - 1) / 2);
            let constants = draft.functions.iter().filter(|f| f.arity == 0).count();
            let more: usize = (1..=constants).map(|place| place.min(size)).sum();
            let (with, without): (Vec<_>, Vec<_>) = (with.clauses().collect(), without.clauses().collect());
            assert_eq!(with.len(), without.len() + more, "{}", text(&sheet));
            assert_eq!(with[..before], without[..before]);
            assert_eq!(with[before + more..], without[before..]);
            tally.add(if helpers > 0 { "helpers" } else { "no helpers" }, 0);
            tally.add(&format!("constants: {constants}"), 0);
        }
    }
    tally.covers(
        20,
        &["helpers", "no helpers", "constants: 0", "constants: 1", "constants: 9"],
    );
}

/// The answers with and without constant clauses, where neither search is refused.
fn check_twins(tally: &mut Tally, draft: &Draft, sizes: (u64, u64), terms: Terms) {
    let sheet = draft.sheet();
    for operations in BOTH {
        let search = |options| searched(&operations, &sheet, sizes, options);
        let outcome = match (search(told_yes(terms)), search(told_no(terms))) {
            (Some(Ok(with)), Some(Ok(without))) => {
                let call = || format!("{}, {sizes:?}\n{}", operations.name, text(&sheet));
                same_but_for_the_case(draft, &with, &without).unwrap_or_else(|what| panic!("{what}: {}", call()))
            }
            (Some(Err(with)), Some(Err(without))) => {
                assert_eq!(with.reason, without.reason);
                "refused".to_string()
            }
            (Some(_), Some(_)) => "refused one".to_string(),
            _ => "left out".to_string(),
        };
        tally.add(&outcome, 0);
    }
}

/// None with the same mark; or found at the same size, where the case with constant clauses is a model that obeys them, and no
/// other renumbering of the least model that obeys them comes before it. The outcome in words, or what does not hold.
fn same_but_for_the_case(draft: &Draft, with: &Searched, without: &Searched) -> Result<String, &'static str> {
    let holds = |fact: bool, what: &'static str| if fact { Ok(()) } else { Err(what) };
    holds(with.0 == without.0, "the answer is another")?;
    let Search::Found { size, length, .. } = with.0 else {
        return Ok(if matches!(with.0, Search::None { settled: true, .. }) {
            "none, settled"
        } else {
            "none"
        }
        .to_string());
    };
    let (with, without) = (&with.1[..length], &without.1[..length]);
    holds(is_model(draft, with), "the case is no model")?;
    holds(obeys(draft, with), "the case does not obey")?;
    holds(without <= with, "it comes before the least model")?;
    if size <= 4 {
        let numberings = rearrangements(size as usize);
        let twins = numberings.iter().map(|numbers| renumbered(draft, without, numbers));
        let least = twins.filter(|twin| obeys(draft, twin)).min();
        holds(
            least.is_some_and(|twin| with <= twin.as_slice()),
            "it comes after a renumbering of the least model",
        )?;
    }
    if constants::come_first(draft) {
        holds(with == without, "the case is another")?;
        return Ok("constants first, found".to_string());
    }
    Ok(if with == without {
        "found, the same"
    } else {
        "found, another"
    }
    .to_string())
}

#[test]
fn searches_come_to_the_same_with_and_without() {
    let mut tally = Tally::default();
    let mut random = Random::new(103);
    for _ in 0..8_000 {
        let draft = draft(&mut random);
        let high = random.between(1, 8).min(random.between(1, 5)) as u64;
        let low = if random.once_in(3) {
            random.between(1, high as usize) as u64
        } else {
            1
        };
        let terms = *random.pick(&BOTH_TERMS);
        check_twins(&mut tally, &draft, (low, high), terms);
    }
    for (problem, terms) in problems::ALL.iter().flat_map(|p| BOTH_TERMS.map(|terms| (p, terms))) {
        let draft = Draft::of_sheet(problem.sheet);
        (1..=4).for_each(|high| check_twins(&mut tally, &draft, (1, high), terms));
    }
    tally.covers(
        200,
        &["constants first, found", "found, the same", "none", "none, settled"],
    );
    tally.covers(50, &["found, another", "refused"]);
}

/// A sheet at a size, of which every case is tried.
struct Small {
    draft: Draft,
    sheet: Vec<u8>,
    size: usize,
    /// All models, and those of them that obey the constant clauses.
    models: BTreeSet<Vec<u8>>,
    obeying: BTreeSet<Vec<u8>>,
}

impl Small {
    /// Nothing where the cases are too many.
    fn random(random: &mut Random) -> Option<Small> {
        let (draft, size) = (constants::tiny(random), random.between(1, 3));
        let values = cell_values(&draft, size);
        if values.iter().map(|values| values.len()).product::<usize>() > CASES {
            return None;
        }
        let models = models(&draft, size);
        let obeying = models.iter().filter(|case| obeys(&draft, case)).cloned().collect();
        Some(Small {
            sheet: draft.sheet(),
            draft,
            size,
            models,
            obeying,
        })
    }

    /// Every renumbering of a model is one, and one of them obeys.
    fn models_have_twins_that_obey(&self) {
        for case in &self.models {
            let numberings = rearrangements(self.size).into_iter();
            let twins: Vec<Vec<u8>> = numberings
                .map(|numbers| renumbered(&self.draft, case, &numbers))
                .collect();
            assert!(twins.iter().all(|twin| self.models.contains(twin)));
            assert!(twins.iter().any(|twin| self.obeying.contains(twin)));
        }
    }

    /// The settings that satisfy the clauses are those of the models that obey, one each. There must be few variables.
    fn settings_stand_for_them(&self, operations: &Operations, terms: Terms) -> bool {
        let counts = reference::instances_and_variables(&self.sheet, self.size as u64, asked(terms));
        let is_small = counts.is_ok_and(|(_, variables)| variables <= 14);
        if is_small {
            let cases = satisfying(operations, &self.sheet, self.size as u64, asked(terms));
            assert_eq!(cases, self.obeying, "{}", text(&self.sheet));
        }
        is_small
    }

    /// The searches find the least of all and the least of those that obey.
    fn least_are_found(&self, operations: &Operations, terms: Terms) {
        let found = |options| {
            let sizes = (self.size as u64, self.size as u64);
            let (search, output) = searched(operations, &self.sheet, sizes, options)?.ok()?;
            Some(matches!(search, Search::Found { .. }).then_some(output))
        };
        assert_eq!(found(told_yes(terms)), Some(self.obeying.first().cloned()));
        assert_eq!(found(told_no(terms)), Some(self.models.first().cloned()));
    }
}

#[test]
fn every_model_has_a_renumbering_that_obeys() {
    let mut tally = Tally::default();
    let mut random = Random::new(104);
    for _ in 0..1_000 {
        let Some(small) = Small::random(&mut random) else {
            continue;
        };
        small.models_have_twins_that_obey();
        for (operations, terms) in BOTH.into_iter().flat_map(|o| BOTH_TERMS.map(|terms| (o, terms))) {
            small.least_are_found(&operations, terms);
            if small.settings_stand_for_them(&operations, terms) {
                tally.add("settings", 0);
            }
        }
        let outcome = if small.models.is_empty() { "none" } else { "models" };
        tally.add(&format!("size {}, {outcome}", small.size), 0);
        let all_obey = small.models.len() == small.obeying.len();
        tally.add(if all_obey { "all obey" } else { "some obey" }, 0);
    }
    tally.covers(20, &["settings", "size 1, none", "size 1, models", "size 2, none"]);
    tally.covers(
        20,
        &[
            "size 2, models",
            "size 3, none",
            "size 3, models",
            "all obey",
            "some obey",
        ],
    );
}

/// The clauses count: a sheet has just as many instances and needs just as much work with them as is taken.
#[test]
fn constant_clauses_count() {
    // the cell of its constant has 29 instances, and the constant clauses have one
    let most = problems::MILLION_CONSTANT;
    let over = text(most).replace("clauses=20", "clauses=21") + "clause=+ o\n";
    let over = over.as_bytes();
    let instances = |sheet: &[u8], options| reference::instances_and_variables(sheet, 8, options).map(|(i, _)| i);
    assert_eq!(instances(most, asked(Terms::AsWritten)), Ok(MAX_INSTANCES));
    assert_eq!(instances(over, not_asked(Terms::AsWritten)), Ok(MAX_INSTANCES));
    // a function of one argument at size 3 has 27 literals and 12 instances, two constants 18 and 8; their clauses 5 and 3
    let two = sheet_of(&["a/0", "f/1", "b/0"], &[], &[]);
    let with_table = |literals: u64, instances: u64| literals + 27 + 2 * (instances + 12) + 8 * 15 + 16;
    for operations in BOTH {
        let write = |sheet: &[u8], options| (operations.write)(sheet, 8, options, &mut []).map_err(|r| r.reason);
        assert_eq!(write(most, asked(Terms::AsWritten)), Err(Reason::OutputTooShort));
        assert_eq!(write(over, asked(Terms::AsWritten)), Err(Reason::TooManyInstances));
        assert_eq!(write(over, not_asked(Terms::AsWritten)), Err(Reason::OutputTooShort));
        let find = |sheet: &[u8], high, options| (operations.find)(sheet, 1, high, options, &mut [], &mut []);
        let refused = |sheet: &[u8], options| find(sheet, 8, options).map_err(|r| r.reason);
        assert_eq!(refused(most, told_yes(Terms::AsWritten)), Err(Reason::WorkTooShort));
        assert_eq!(refused(over, told_yes(Terms::AsWritten)), Err(Reason::TooManyInstances));
        assert_eq!(refused(over, told_no(Terms::AsWritten)), Err(Reason::WorkTooShort));
        let needed = |options| find(&two, 3, options).expect_err("there is no room").needed;
        assert_eq!(needed(told_no(Terms::AsWritten)), with_table(18, 8));
        assert_eq!(needed(told_yes(Terms::AsWritten)), with_table(18 + 5, 8 + 3));
    }
}
