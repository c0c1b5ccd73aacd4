//! Pairs of sheets to merge: what is shared and what is new, limits from both sides, and refusals of one sheet and of both.

use crate::calls::{file, merging, Call};
use crate::damaged::one_of_each;
use crate::examples::{full, two_constants};
use nesskettle_reference::{merge, sheet_of};

type Pair = (Vec<u8>, Vec<u8>);

/// Pairs that are merged, or refused with 22 or 23.
pub fn examples() -> Vec<Call> {
    let short = [shared(), alike(), clashing(), around_counts()].concat();
    let mut calls: Vec<Call> = short.into_iter().flat_map(lent_around).collect();
    calls.extend(
        large()
            .into_iter()
            .map(|(first, second)| merging(first, second, 16_384)),
    );
    calls
}

/// Refusals 1 to 7 of each sheet, each before all that comes later.
pub fn damaged() -> Vec<Call> {
    let other_kind = sheet_of(&["p/1"], &["a/0"], &[""]);
    let faulty = one_of_each();
    let again = faulty.iter().skip(1).chain(&faulty).take(faulty.len());
    let in_second = faulty.iter().map(|sheet| merging(&other_kind, sheet, 0));
    let in_first = faulty.iter().map(|sheet| merging(sheet, &other_kind, 0));
    // the first sheet's is told, though the second's has another, mostly higher number
    let in_both = faulty
        .iter()
        .zip(again)
        .map(|(first, second)| merging(first, second, 300));
    let empty = [merging(b"", b"", 300), merging(no_symbols(), b"", 300)];
    in_first.chain(in_second).chain(in_both.skip(1)).chain(empty).collect()
}

/// Just enough output, too little, and more.
fn lent_around((first, second): Pair) -> Vec<Call> {
    let needed = merge(&first, &second, &mut []).map_or_else(|merge| merge.refusal.needed, |length| length as u64);
    let outputs = [Some(needed), needed.checked_sub(1), Some(needed + 9)];
    let lent = |output: u64| merging(&first, &second, output);
    outputs.into_iter().flatten().map(lent).collect()
}

fn no_symbols() -> Vec<u8> {
    sheet_of(&[], &[], &[])
}

fn shared() -> Vec<Pair> {
    let (machine, clinic) = (
        sheet_of(&["a/0", "f/1"], &["p/1", "q/2"], &["+ p a", "- p A + p f A"]),
        sheet_of(&["b/0", "a/0"], &["r/0", "p/1"], &["- p b + r", "+ p a", "- = a b"]),
    );
    let repeating = sheet_of(&["a/0"], &["p/1"], &["+ p a", "- = a a", "+ p a", "", "- = a a", ""]);
    vec![
        // new symbols and clauses behind the first's, in each order of the two
        (machine.clone(), clinic.clone()),
        (clinic, machine.clone()),
        // a sheet without symbols and clauses, on either side and on both; without symbols alone, without clauses alone
        (no_symbols(), machine.clone()),
        (machine.clone(), no_symbols()),
        (no_symbols(), no_symbols()),
        (machine.clone(), sheet_of(&[], &[], &["+ = A A", ""])),
        (machine.clone(), sheet_of(&["c/0"], &["s/3"], &[])),
        (sheet_of(&["f/1", "c/0"], &[], &[]), sheet_of(&["c/0", "f/1"], &[], &[])),
        // all of the second is in the first
        (machine.clone(), machine.clone()),
        (machine, sheet_of(&["f/1"], &["p/1"], &["- p A + p f A"])),
        // repeats stay, in the first as in the second, but those in the second that the first has
        (repeating.clone(), repeating.clone()),
        (no_symbols(), repeating.clone()),
        (repeating.clone(), no_symbols()),
        (sheet_of(&[], &[], &[""]), repeating.clone()),
        (
            repeating,
            sheet_of(&["a/0"], &["p/1"], &["- p a", "+ p a", "- p a", "- p a"]),
        ),
        // as files
        (two_constants(), file("group.sheet")),
        (file("group.sheet"), file("exponent-2.sheet")),
    ]
}

/// Names and clauses that are nearly the same.
fn alike() -> Vec<Pair> {
    let over = |clauses: &[&str]| sheet_of(&["a/0", "aa/0"], &["p/1", "pp/1", "o/0"], clauses);
    vec![
        // one is the beginning of another, or its end
        (over(&["+ p a"]), over(&["+ p aa", "+ pp a", "+ p a + o", "- p a"])),
        (over(&["+ p aa", "+ o + o"]), over(&["+ p a", "+ o", "+ o + o + o"])),
        (over(&[""]), over(&["+ o", ""])),
        (over(&["+ o"]), over(&["", "+ o"])),
        // unlike in one byte: the first, the last, one inside
        (
            over(&["+ p A", "- p a + pp B"]),
            over(&["- p A", "+ p B", "- p a - pp B"]),
        ),
        // the same in other letters, in another order, either way round
        (
            over(&["+ = A B", "- p A - pp A"]),
            over(&["+ = B A", "- pp A - p A", "- p B - pp B"]),
        ),
        // names that begin or end alike, or are keys
        (
            sheet_of(&["a/0", "ab/1"], &["abc/2"], &["+ abc a ab a"]),
            sheet_of(&["abcd/0", "b/1"], &["bc/2"], &["- bc abcd b abcd"]),
        ),
        (
            sheet_of(&["clause/0", "fun/1"], &["sheet/0"], &["+ = clause fun clause"]),
            sheet_of(
                &["funs/0", "pred/1"],
                &["clauses/0"],
                &["+ = funs pred funs", "- clauses"],
            ),
        ),
        // the same name with the same arity, in different places of the lists
        (
            sheet_of(&["a/0", "b/0", "c/0"], &["p/1", "q/1"], &[]),
            sheet_of(&["c/0", "d/0", "a/0"], &["q/1", "p/1"], &["+ p d"]),
        ),
    ]
}

/// A shared name of another kind or arity: 22, before 23.
fn clashing() -> Vec<Pair> {
    let first = sheet_of(&["a/0", "f/1"], &["p/1", "q/2"], &["+ p a"]);
    let with = |functions: &[&str], predicates: &[&str]| (first.clone(), sheet_of(functions, predicates, &[]));
    let many =
        |letter: char, arity: usize| -> Vec<String> { (0..12).map(|i| format!("{letter}{i}/{arity}")).collect() };
    let twelve = |names: &[String]| {
        let names: Vec<&str> = names.iter().map(String::as_str).collect();
        sheet_of(&names, &[], &["+ = A A"; 64])
    };
    vec![
        with(&["f/2"], &[]),
        with(&["a/0", "b/0", "f/0"], &["p/1"]),
        with(&[], &["q/2", "p/2"]),
        with(&[], &["f/1"]),
        with(&["p/1"], &[]),
        with(&["q/0"], &["a/3"]),
        // the other way round
        (sheet_of(&["p/1"], &[], &[]), first.clone()),
        (sheet_of(&[], &["q/1"], &[]), first.clone()),
        // taken: no name is shared, or only with the same kind and arity
        with(&["g/1"], &["r/2"]),
        with(&["f/1"], &["q/2"]),
        // and over every limit at once
        (
            twelve(&many('f', 0)),
            twelve(&[many('g', 1)[..11].to_vec(), vec!["f11/1".to_string()]].concat()),
        ),
    ]
}

/// 12 and 13 functions and predicates, 64 and 65 clauses, counts that get a second digit.
fn around_counts() -> Vec<Pair> {
    let names = |range: std::ops::Range<usize>| -> Vec<String> { range.map(|i| format!("s{i}/0")).collect() };
    let clauses = |range: std::ops::Range<usize>| -> Vec<String> {
        range
            .map(|i| format!("+ = {} {}", letter(i / 8), letter(i % 8)))
            .collect()
    };
    let functions = |range| sheet_of(&lent(&names(range)), &[], &[]);
    let predicates = |range| sheet_of(&[], &lent(&names(range)), &[]);
    let listing = |range| sheet_of(&[], &[], &lent(&clauses(range)));
    let empty = |count: usize| sheet_of(&[], &[], &vec![""; count]);
    vec![
        (functions(0..5), functions(5..9)),
        (functions(0..5), functions(3..10)),
        (functions(0..12), functions(0..12)),
        (functions(0..7), functions(4..12)),
        (functions(0..7), functions(4..13)),
        (functions(0..12), functions(12..13)),
        (functions(0..12), predicates(12..24)),
        (predicates(0..1), predicates(1..12)),
        (predicates(0..1), predicates(1..13)),
        (predicates(0..12), predicates(11..13)),
        (listing(0..9), listing(9..10)),
        (listing(0..40), listing(20..64)),
        (listing(0..63), listing(10..64)),
        (listing(0..64), listing(0..64)),
        (listing(0..64), empty(1)),
        (listing(0..33), empty(31)),
        (listing(0..33), empty(32)),
        // over 99 together
        (listing(0..64), empty(36)),
        (listing(0..64), empty(64)),
    ]
}

/// As long as a sheet may be, and longer.
fn large() -> Vec<Pair> {
    let whole = || full(16_384);
    vec![
        (whole(), no_symbols()),
        (no_symbols(), whole()),
        (whole(), whole()),
        halves(16_384),
        halves(16_385),
    ]
}

/// Two sheets of 32 clauses each whose merged sheet has so many bytes.
fn halves(length: usize) -> Pair {
    let long = "+ abcdefghijkl mnopqrstuvwx mnopqrstuvwx mnopqrstuvwx ".repeat(4);
    let mut clauses: Vec<String> = (0..64)
        .map(|i| format!("{long}+ abcdefghijkl A {} {}", letter(i / 8), letter(i % 8)))
        .collect();
    let made = |clauses: &[String], name: usize| {
        let constant = "z".repeat(name) + "/0";
        sheet_of(
            &["mnopqrstuvwx/0", &constant],
            &["abcdefghijkl/3", "q/0"],
            &lent(clauses),
        )
    };
    let mut next = 0;
    while made(&clauses, 1).len() + 4 <= length {
        clauses[next % 64] += " + q";
        next += 1;
    }
    let name = 1 + length - made(&clauses, 1).len();
    (made(&clauses[..32], name), made(&clauses[32..], name))
}

/// One of eight letters.
fn letter(i: usize) -> char {
    char::from(b'A' + i as u8)
}

fn lent(entries: &[String]) -> Vec<&str> {
    entries.iter().map(String::as_str).collect()
}
