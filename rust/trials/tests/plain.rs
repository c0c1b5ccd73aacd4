//! The plain search on the proved library: the reference's answer and every lent byte; and both searches, the library's
//! and the reference's, on the same sheets.
//!
//! Inputs are generated from fixed seeds. Each test counts what came out, so that a generator that no longer reaches a
//! result or a refusal fails.

use nesskettle::raw;
use nesskettle_reference::{self as reference, sheet_of, Operations, Reason, Refusal, Search, Terms};
use nesskettle_trials::buffers::{length_around, Lent};
use nesskettle_trials::damage::damaged;
use nesskettle_trials::draft::{Draft, BROAD, LIMITS, SMALL};
use nesskettle_trials::expected;
use nesskettle_trials::models::outcome;
use nesskettle_trials::options::{not_asked, told_no};
use nesskettle_trials::problems;
use nesskettle_trials::random::Random;
use nesskettle_trials::tally::Tally;

const BOTH: [Operations; 2] = [nesskettle::OPERATIONS, reference::OPERATIONS];

/// Searches that judge more cases than this are left out.
const CASES: u64 = 1_000;

/// Calls the library, and holds its answer and the lent bytes against the reference's. The outcome in words, or nothing
/// where the search is left out.
fn check(sheet: &[u8], low: u64, high: u64, output_length: usize) -> Option<String> {
    let mut should = vec![0; output_length];
    let within = reference::find_plain_within(sheet, low, high, &mut should, CASES);
    let (expected, front) = expected::search(within.transpose()?);
    let lent = sheet.to_vec();
    let mut output = Lent::bytes(output_length);
    let out = output.lend();
    // SAFETY: pointers and lengths are slices', and the output is lent to this call alone.
    let answer = unsafe { raw::nk_find_plain(lent.as_ptr(), lent.len(), low, high, out.as_mut_ptr(), out.len()) };
    let call = || {
        let sheet = String::from_utf8_lossy(sheet);
        format!("find plain, {low} to {high}, output {output_length}\n{sheet}")
    };
    assert_eq!(answer, expected, "{}", call());
    assert!(
        lent == sheet && output.holds(&should[..front]),
        "lent bytes: {}",
        call()
    );
    Some(match answer.reason {
        0 => expected::outcome(&answer).to_string(),
        reason => reason.to_string(),
    })
}

/// Low and high, mostly small, now and then bad ones.
fn sizes(random: &mut Random) -> (u64, u64) {
    let bad = [0, 9, 258, (1 << 32) + 2, u64::MAX];
    let high = random.between(1, 8).min(random.between(1, 4)) as u64;
    match random.below(30) {
        0 => (*random.pick(&bad), high),
        1 => (1, *random.pick(&bad)),
        2 => (high + 1, high),
        3..=9 => (high, high),
        10..=13 => (high / 2 + 1, high),
        _ => (1, high),
    }
}

#[test]
fn models_are_found_alike() {
    let mut tally = Tally::default();
    let mut random = Random::new(70);
    for _ in 0..40_000 {
        let style = *random.pick(&[SMALL, SMALL, SMALL, BROAD, LIMITS]);
        let mut sheet = Draft::random(&mut random, style).sheet();
        if random.once_in(20) {
            sheet = damaged(&mut random, &sheet);
        }
        let (low, high) = sizes(&mut random);
        let needed = reference::needed(&sheet, high, told_no(Terms::AsWritten)).map_or(20, |(_, output)| output);
        let length = length_around(&mut random, needed);
        let outcome = check(&sheet, low, high, length);
        tally.add(outcome.as_deref().unwrap_or("left out"), 0);
    }
    tally.covers(50, &["found", "none", "none, settled", "2", "3", "5", "8", "11", "20"]);
}

/// 64 cells at high are taken, 65 are refused, whatever symbols have them.
#[test]
fn up_to_64_cells_are_taken() {
    let mut tally = Tally::default();
    let mut random = Random::new(71);
    let mut style = BROAD;
    style.clauses = 2;
    for _ in 0..4_000 {
        let high = random.between(2, 8);
        let cells = random.between(63, 66);
        let sheet = Draft::with_cells(&mut random, style, high, cells).sheet();
        let Ok((_, needed)) = reference::needed(&sheet, high as u64, told_no(Terms::AsWritten)) else {
            continue;
        };
        let length = length_around(&mut random, needed);
        if let Some(outcome) = check(&sheet, high as u64, high as u64, length) {
            tally.add(&format!("{cells} cells: {outcome}"), 0);
            assert_eq!(outcome == "20", cells > 64);
        }
    }
    tally.covers(
        100,
        &["63 cells: found", "63 cells: 11", "64 cells: found", "64 cells: 11"],
    );
    tally.covers(100, &["65 cells: 20", "66 cells: 20"]);
}

/// Sheet numbers, 8, 20, 11; 20 and 11 look at high alone.
#[test]
fn refusals_come_in_their_order() {
    let many = sheet_of(&["a/0"], &["p/2"], &["+ = A A"]);
    let few = sheet_of(&[], &["p/2"], &["+ = A A"]);
    let broken = sheet_of(&["a/0"], &["p/2"], &["+ p a"]);
    for operations in BOTH {
        let refused = |sheet: &[u8], low: u64, high: u64| {
            let refusal = (operations.find_plain)(sheet, low, high, &mut [7; 50]).expect_err("it is refused");
            (refusal.reason, refusal.line, refusal.column, refusal.needed)
        };
        assert_eq!(refused(&broken, 0, 9), (Reason::NotAClause, 7, 13, 0));
        assert_eq!(refused(&many, 0, 8), (Reason::BadSize, 0, 0, 0));
        assert_eq!(refused(&many, 1, 9), (Reason::BadSize, 0, 0, 0));
        assert_eq!(refused(&many, 9, 8), (Reason::BadSize, 0, 0, 0));
        assert_eq!(refused(&many, 1, 8), (Reason::TooManyCells, 0, 0, 0));
        assert_eq!(refused(&few, 1, 8), (Reason::OutputTooShort, 0, 0, 144));
        let found = |length: usize| {
            let (size, choices) = (1, 0);
            Ok(Search::Found { size, length, choices })
        };
        assert_eq!((operations.find_plain)(&many, 1, 4, &mut [7; 52]), found(22));
        assert_eq!((operations.find_plain)(&few, 1, 8, &mut [7; 144]), found(18));
    }
}

/// What one search is refused for is nothing to the other.
#[test]
fn each_search_takes_what_the_other_refuses() {
    // ten variables after flattening: 4^10 instances
    let instances = sheet_of(&["a/0", "b/0"], &["r/2"], &["+ r A B - r C D + r E F - r G H + r a b"]);
    let cells = sheet_of(&["a/0", "b/0"], &["r/2"], &["+ r a b"]);
    for operations in BOTH {
        let reasons = |sheet: &[u8], high: u64| {
            both_searches(&operations, sheet, 2, high).map(|(answer, _)| answer.err().map(|refusal| refusal.reason))
        };
        assert_eq!(reasons(&instances, 3), [None, None]);
        assert_eq!(reasons(&instances, 4), [Some(Reason::TooManyInstances), None]);
        assert_eq!(reasons(&cells, 7), [None, None]);
        assert_eq!(reasons(&cells, 8), [None, Some(Reason::TooManyCells)]);
    }
}

/// Both searches on this implementation, each with just the room that it needs: what they answer, the number of choices left
/// out, and leave.
fn both_searches(
    operations: &Operations,
    sheet: &[u8],
    low: u64,
    high: u64,
) -> [(Result<Search, Refusal>, Vec<u8>); 2] {
    let (work, output) = reference::needed(sheet, high, told_no(Terms::AsWritten)).expect("it is a sheet");
    let mut work = vec![7; work as usize];
    let output = vec![7; output as usize];
    let (mut by_clauses, mut plain) = (output.clone(), output);
    let found = (operations.find)(sheet, low, high, told_no(Terms::AsWritten), &mut work, &mut by_clauses);
    let found_plain = (operations.find_plain)(sheet, low, high, &mut plain);
    let found = found.map(|search| search.with_choices(0));
    [(found, by_clauses), (found_plain, plain)]
}

/// The same size and case, or none with the same mark; nothing where a search is refused, or the plain one left out.
fn agreed(sheet: &[u8], low: u64, high: u64) -> Option<Search> {
    let (instances, _) = reference::instances_and_variables(sheet, high, not_asked(Terms::AsWritten)).ok()?;
    let (_, output) = reference::needed(sheet, high, told_no(Terms::AsWritten)).ok()?;
    if instances > reference::MAX_INSTANCES {
        return None;
    }
    let mut output = vec![7; output as usize];
    let search = reference::find_plain_within(sheet, low, high, &mut output, CASES).ok()??;
    for operations in BOTH {
        for answered in both_searches(&operations, sheet, low, high) {
            let call = || {
                format!(
                    "{}, {low} to {high}\n{}",
                    operations.name,
                    String::from_utf8_lossy(sheet)
                )
            };
            assert_eq!(answered, (Ok(search), output.clone()), "{}", call());
        }
    }
    Some(search)
}

fn add_agreed(tally: &mut Tally, search: Option<Search>) {
    let outcome = match search {
        None => "left out".to_string(),
        Some(search) => outcome(search),
    };
    tally.add(&outcome, 0);
}

#[test]
fn both_searches_agree() {
    let mut tally = Tally::default();
    let mut random = Random::new(72);
    for _ in 0..12_000 {
        let style = *random.pick(&[SMALL, SMALL, SMALL, BROAD]);
        let sheet = Draft::random(&mut random, style).sheet();
        let high = random.between(1, 8).min(random.between(1, 4)) as u64;
        let low = if random.once_in(3) {
            random.between(1, high as usize) as u64
        } else {
            1
        };
        let agreed = agreed(&sheet, low, high);
        add_agreed(&mut tally, agreed);
    }
    tally.covers(1_000, &["found at 1", "found at 2", "none", "none, settled"]);
    tally.covers(100, &["found at 3"]);
}

#[test]
fn both_searches_agree_on_named_problems() {
    let mut tally = Tally::default();
    for problem in problems::ALL {
        for (low, high) in (1..=8).flat_map(|high| (1..=high).map(move |low| (low, high))) {
            let agreed = agreed(problem.sheet, low, high);
            add_agreed(&mut tally, agreed);
        }
    }
    tally.covers(1, &["found at 1", "found at 2", "none"]);
}
