//! Merge on the proved library: the reference's answer and every lent byte; and what a merged sheet is, on the library and the
//! reference alike: a sheet that was split comes together again, a sheet without symbols and clauses changes no byte, three
//! sheets give the same bytes however grouped, and its models are those of both sheets.
//!
//! Inputs are generated from fixed seeds. Each test counts what came out, so that a generator that no longer reaches a
//! result or a refusal fails.

use nesskettle::raw;
use nesskettle_reference::{self as reference, sheet_of, MergeRefusal, Operations, Reason, WhichSheet};
use nesskettle_trials::buffers::{length_around, Lent};
use nesskettle_trials::checks::text;
use nesskettle_trials::damage::damaged;
use nesskettle_trials::draft::{long_sheet, Draft, BROAD, LIMITS, SMALL};
use nesskettle_trials::models::small_model;
use nesskettle_trials::pairs::{around_bytes, around_counts, pair, related, split, Split};
use nesskettle_trials::random::Random;
use nesskettle_trials::tally::Tally;
use nesskettle_trials::{expected, truth};

const BOTH: [Operations; 2] = [nesskettle::OPERATIONS, reference::OPERATIONS];

/// No sheet has more bytes.
const MOST_BYTES: usize = 16_384;

/// Calls the library, and holds its answer and the lent bytes against the reference's.
fn check(tally: &mut Tally, first: &[u8], second: &[u8], output_length: usize) {
    let mut should = vec![0; output_length];
    let (expected, front) = expected::merged(reference::merge(first, second, &mut should), &should);
    let (lent_first, lent_second) = (first.to_vec(), second.to_vec());
    let mut output = Lent::bytes(output_length);
    let out = output.lend();
    // SAFETY: pointers and lengths are slices', and the output is lent to this call alone.
    let answer = unsafe {
        raw::nk_merge(
            lent_first.as_ptr(),
            lent_first.len(),
            lent_second.as_ptr(),
            lent_second.len(),
            out.as_mut_ptr(),
            out.len(),
        )
    };
    let call = || format!("merge, output {output_length}\n{}\n{}", text(first), text(second));
    assert_eq!(answer, expected, "{}", call());
    assert!(
        lent_first == first && lent_second == second && output.holds(front),
        "lent bytes: {}",
        call()
    );
    match answer.sheet {
        0 => tally.add("merged", answer.reason),
        sheet => tally.add(&format!("{} of sheet {sheet}", answer.reason), 0),
    }
}

/// A length around that of the merged sheet.
fn output_for(random: &mut Random, first: &[u8], second: &[u8]) -> usize {
    let needed = reference::merge(first, second, &mut []).map_or_else(|r| r.refusal.needed, |n| n as u64);
    length_around(random, if needed > 0 { needed } else { 60 })
}

/// What is written with room enough.
fn merged(operations: &Operations, first: &[u8], second: &[u8]) -> Result<Vec<u8>, MergeRefusal> {
    let mut output = vec![7; MOST_BYTES];
    let length = (operations.merge)(first, second, &mut output)?;
    output.truncate(length);
    Ok(output)
}

#[test]
fn sheets_are_merged_alike() {
    let mut tally = Tally::default();
    let mut random = Random::new(110);
    for _ in 0..60_000 {
        let style = *random.pick(&[SMALL, SMALL, BROAD, LIMITS]);
        let (first, second) = pair(&mut random, style);
        let (mut first, mut second) = (first.sheet(), second.sheet());
        if random.once_in(6) {
            first = damaged(&mut random, &first);
        }
        if random.once_in(4) {
            second = damaged(&mut random, &second);
        }
        let output = output_for(&mut random, &first, &second);
        check(&mut tally, &first, &second, output);
    }
    for _ in 0..200 {
        let (first, second) = (long_sheet(&mut random), Draft::random(&mut random, SMALL).sheet());
        check(&mut tally, &first, &second, MOST_BYTES);
        check(&mut tally, &second, &first, MOST_BYTES);
    }
    tally.covers(1_000, &["merged", "11", "22"]);
    tally.covers(20, &["23", "1 of sheet 1", "1 of sheet 2"]);
    let of_first = (2..=7).map(|number| format!("{number} of sheet 1"));
    let of_either: Vec<String> = of_first
        .chain((2..=7).map(|number| format!("{number} of sheet 2")))
        .collect();
    tally.covers(50, &of_either.iter().map(String::as_str).collect::<Vec<_>>());
}

/// Each byte of each sheet changed to each other byte, and each sheet cut after each byte.
#[test]
fn every_small_change_is_taken_alike() {
    let mut tally = Tally::default();
    let first = sheet_of(&["a/0", "b/0"], &["p/1"], &["+ p a"]);
    let second = sheet_of(&["f/1", "a/0", "b/0"], &["p/1", "q/2"], &["- p f a", "+ p a"]);
    let mut check = |first: &[u8], second: &[u8]| check(&mut tally, first, second, 200);
    for at in 0..first.len() {
        check(&first[..at], &second);
        for byte in 0..=255 {
            let mut changed = first.clone();
            changed[at] = byte;
            check(&changed, &second);
        }
    }
    for at in 0..second.len() {
        check(&first, &second[..at]);
        for byte in 0..=255 {
            let mut changed = second.clone();
            changed[at] = byte;
            check(&first, &changed);
        }
    }
    tally.covers(50, &["merged", "2 of sheet 1", "2 of sheet 2"]);
    tally.covers(5, &["22"]);
}

/// The merged sheet of the two parts is the whole, or 23 where that is too large for a sheet.
fn check_split(tally: &mut Tally, split: Split) {
    let (first, second) = (split.first.sheet(), split.second.sheet());
    if reference::read(&first).is_err() || reference::read(&second).is_err() {
        return tally.add("left out", 0);
    }
    let (whole, sheet) = (&split.whole, split.whole.sheet());
    let over_a_count = whole.functions.len() > 12 || whole.predicates.len() > 12 || whole.clauses.len() > 64;
    for operations in BOTH {
        let merged = merged(&operations, &first, &second);
        if over_a_count || sheet.len() > MOST_BYTES {
            assert_eq!(
                merged.map_err(|r| (r.refusal.reason, r.sheet)),
                Err((Reason::MergeTooLarge, None))
            );
        } else {
            assert_eq!(merged.as_ref(), Ok(&sheet), "{}\n{}", text(&first), text(&second));
            assert!((operations.read)(&sheet).is_ok(), "the merged text is a sheet");
        }
    }
    let limits = [
        (whole.functions.len(), 12, "functions"),
        (whole.predicates.len(), 12, "predicates"),
        (whole.clauses.len(), 64, "clauses"),
        (sheet.len(), MOST_BYTES, "bytes"),
    ];
    for (count, most, what) in limits {
        if count == most || count == most + 1 {
            tally.add(&format!("{count} {what}"), 0);
        }
    }
    tally.add(if over_a_count { "over a count" } else { "no count over" }, 0);
}

#[test]
fn a_split_sheet_comes_together_again() {
    let mut tally = Tally::default();
    let mut random = Random::new(111);
    for round in 0..10_000 {
        let whole = match round % 10 {
            0 | 1 => around_counts(&mut random),
            2 => around_bytes(&mut random),
            _ => {
                let style = *random.pick(&[SMALL, BROAD, LIMITS]);
                Draft::random(&mut random, style)
            }
        };
        check_split(&mut tally, split(&mut random, whole));
    }
    tally.covers(200, &["over a count", "no count over"]);
    tally.covers(100, &["12 functions", "13 functions", "12 predicates", "13 predicates"]);
    tally.covers(30, &["64 clauses", "65 clauses", "16384 bytes", "16385 bytes"]);
}

#[test]
fn a_sheet_without_symbols_and_clauses_changes_no_byte() {
    let empty = sheet_of(&[], &[], &[]);
    let mut tally = Tally::default();
    let mut random = Random::new(112);
    for round in 0..10_000 {
        let style = *random.pick(&[SMALL, BROAD, LIMITS]);
        let sheet = match round % 20 {
            0 => around_bytes(&mut random).sheet(),
            _ => Draft::random(&mut random, style).sheet(),
        };
        let taken = reference::read(&sheet).is_ok();
        for operations in BOTH.iter().filter(|_| taken) {
            assert_eq!(merged(operations, &empty, &sheet).as_ref(), Ok(&sheet));
            assert_eq!(merged(operations, &sheet, &empty).as_ref(), Ok(&sheet));
            // nor does the sheet itself, whose clauses are none of them new
            assert_eq!(merged(operations, &sheet, &sheet).as_ref(), Ok(&sheet));
        }
        tally.add(if taken { "a sheet" } else { "left out" }, 0);
    }
    tally.covers(5_000, &["a sheet"]);
}

#[test]
fn three_sheets_give_the_same_bytes_however_grouped() {
    for operations in BOTH {
        let merged = |first: &[u8], second: &[u8]| merged(&operations, first, second);
        let mut tally = Tally::default();
        let mut random = Random::new(113);
        for _ in 0..10_000 {
            let style = *random.pick(&[SMALL, SMALL, BROAD, LIMITS]);
            let sheets: Vec<Vec<u8>> = related(&mut random, style, 3).iter().map(Draft::sheet).collect();
            let [a, b, c] = [&sheets[0], &sheets[1], &sheets[2]];
            let left = merged(a, b).and_then(|ab| merged(&ab, c));
            let right = merged(b, c).and_then(|bc| merged(a, &bc));
            match (left, right) {
                (Ok(left), Ok(right)) => {
                    assert_eq!(left, right, "{}\n{}\n{}", text(a), text(b), text(c));
                    tally.add("grouped", 0);
                }
                _ => tally.add("a step is refused", 0),
            }
        }
        tally.covers(5_000, &["grouped"]);
        tally.covers(100, &["a step is refused"]);
    }
}

/// The case's tables for the draft's symbols, as a case of the draft.
fn restricted(case: &[u8], draft: &Draft) -> Vec<u8> {
    let case = std::str::from_utf8(case).expect("a case is text");
    let mut lines = case.split_inclusive('\n');
    let head = [lines.next(), lines.next()].map(|line| line.expect("two lines come first"));
    let tables: Vec<&str> = lines.collect();
    let table = |name: &str| {
        let key = format!("{name}=");
        tables
            .iter()
            .find(|line| line.starts_with(&key))
            .expect("it has each symbol")
    };
    let tables = draft.symbols().map(|s| *table(&s.name));
    head.into_iter().chain(tables).collect::<String>().into_bytes()
}

/// A case of the merged sheet: a model with one entry changed now and then, or any.
fn case_of(random: &mut Random, sheet: &[u8]) -> Vec<u8> {
    let size = random.between(1, 3);
    let any = Draft::of_sheet(sheet).case(random, size);
    if random.once_in(3) {
        return any;
    }
    let Some(mut case) = small_model(sheet) else {
        return any;
    };
    let entries: Vec<usize> = (14..case.len())
        .filter(|&i| matches!(case[i - 1], b'=' | b' '))
        .collect();
    if !entries.is_empty() && random.once_in(2) {
        let at = *random.pick(&entries);
        case[at] = match case[at] {
            b'0' => b'1',
            // both are entries of a function with two elements and more, and of a predicate
            b'1' => *random.pick(b"01"),
            _ => b'1',
        };
    }
    case
}

/// A case is a model of the merged sheet exactly if its tables for each sheet's symbols form a model of that sheet.
#[test]
fn models_of_the_merged_sheet_are_models_of_both() {
    let mut tally = Tally::default();
    let mut random = Random::new(114);
    for _ in 0..12_000 {
        let [first, second] = related(&mut random, SMALL, 2)
            .try_into()
            .unwrap_or_else(|_| unreachable!());
        let sheets = [&first, &second].map(Draft::sheet);
        let Ok(sheet) = merged(&BOTH[0], &sheets[0], &sheets[1]) else {
            tally.add("refused", 0);
            continue;
        };
        let case = case_of(&mut random, &sheet);
        for operations in BOTH {
            // a changed entry may be none that a table can have
            let Ok(is_model) = (operations.judge)(&sheet, &case) else {
                tally.add("no case", 0);
                continue;
            };
            assert_eq!(is_model, truth::is_model(&Draft::of_sheet(&sheet), &case));
            let parts = [(&first, &sheets[0]), (&second, &sheets[1])];
            let fits = parts.map(|(draft, sheet)| (operations.judge)(sheet, &restricted(&case, draft)));
            assert_eq!(Ok(is_model), fits[0].and_then(|one| fits[1].map(|other| one && other)));
            let outcome = match fits {
                [Ok(true), Ok(true)] => "a model of both",
                [Ok(true), _] => "of the first alone",
                [_, Ok(true)] => "of the second alone",
                _ => "of neither",
            };
            tally.add(outcome, 0);
        }
    }
    tally.covers(
        1_000,
        &[
            "a model of both",
            "of the first alone",
            "of the second alone",
            "of neither",
        ],
    );
}

/// The first sheet's numbers, the second's, 22, 23, 11, each before those after it.
#[test]
fn refusals_come_in_their_order() {
    let names: Vec<String> = (0..12).map(|i| format!("f{i}/0")).collect();
    let names: Vec<&str> = names.iter().map(String::as_str).collect();
    let twelve = sheet_of(&names, &["p/0"], &["+ p"; 64]);
    let clashing = sheet_of(&["g/0", "p/0"], &["f0/1"], &["- = A A"]);
    let one_more = sheet_of(&["g/0"], &[], &[]);
    let broken = sheet_of(&["g/0", "p/0"], &["f0/1"], &["+ f0"]);
    let longest = [twelve.clone(), vec![b' '; MOST_BYTES]].concat();
    let (first, second) = (Some(WhichSheet::First), Some(WhichSheet::Second));
    for operations in BOTH {
        let refused = |one: &[u8], other: &[u8], output: usize| {
            let merge = (operations.merge)(one, other, &mut vec![7; output]).expect_err("it is refused");
            let refusal = merge.refusal;
            (
                refusal.reason,
                refusal.line,
                refusal.column,
                refusal.needed,
                merge.sheet,
            )
        };
        let not_a_clause = (Reason::NotAClause, 8, 12, 0);
        let with = |(reason, line, column, needed), sheet| (reason, line, column, needed, sheet);
        assert_eq!(refused(&broken, &longest, 0), with(not_a_clause, first));
        assert_eq!(refused(&longest, &broken, 0), (Reason::SheetTooLong, 0, 0, 0, first));
        assert_eq!(refused(&twelve, &longest, 0), (Reason::SheetTooLong, 0, 0, 0, second));
        assert_eq!(refused(&twelve, &broken, 0), with(not_a_clause, second));
        assert_eq!(refused(&twelve, &clashing, 0), (Reason::NamesDiffer, 0, 0, 0, None));
        assert_eq!(refused(&clashing, &twelve, 0), (Reason::NamesDiffer, 0, 0, 0, None));
        assert_eq!(refused(&twelve, &one_more, 0), (Reason::MergeTooLarge, 0, 0, 0, None));
        let needed = twelve.len() as u64;
        assert_eq!(
            refused(&twelve, &twelve, twelve.len() - 1),
            (Reason::OutputTooShort, 0, 0, needed, None)
        );
        assert_eq!(
            (operations.merge)(&twelve, &twelve, &mut vec![7; twelve.len()]),
            Ok(twelve.len())
        );
    }
}
