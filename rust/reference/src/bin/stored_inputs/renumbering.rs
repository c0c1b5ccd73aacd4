//! Cases to renumber, with lists that are rearrangements and lists that are none, and cases whose least form is asked for.

use crate::calls::{file, judging, Call};
use crate::damaged::judged;
use crate::examples::full_case;
use nesskettle_reference::{renumber, sheet_of};

/// Cases of every size under several rearrangements, and lists that are no rearrangement of their elements.
pub fn renumbers() -> Vec<Call> {
    let mut calls = Vec::new();
    for case in cases() {
        let size = size(&case);
        let all = lists(size);
        let needed = case.beside.len() as u64;
        calls.extend(all.iter().map(|list| with_list(&case, list, needed)));
        let last = all.last().expect("there is a rearrangement");
        calls.extend([needed - 1, needed + 9, 0].map(|output| with_list(&case, last, output)));
    }
    for case in [patterned(1, 3), patterned(2, 5), patterned(3, 4), patterned(8, 3)] {
        let length = case.beside.len() as u64;
        calls.extend(
            no_rearrangements(size(&case))
                .iter()
                .map(|list| with_list(&case, list, length)),
        );
        // 25 before 11
        calls.push(with_list(&case, &[], 0));
    }
    let largest = full_case(8);
    calls.push(with_list(&largest, &[3, 1, 2, 5, 4, 8, 6, 7], 25_000));
    calls
}

/// The same cases and some of their renumberings, which have the same least form.
pub fn least_forms() -> Vec<Call> {
    let mut calls = Vec::new();
    for case in cases() {
        let needed = case.beside.len() as u64;
        let twins = lists(size(&case)).into_iter().map(|list| renumbered(&case, &list));
        calls.extend(twins.map(|twin| lent(&twin, needed)));
        calls.extend([needed - 1, needed + 9, 0].map(|output| lent(&case, output)));
    }
    calls.push(lent(&full_case(8), 25_000));
    calls
}

/// Refusals 1 to 7 and 12, before 25 and 11.
pub fn damaged_renumbers() -> Vec<Call> {
    let calls = judged().into_iter().enumerate();
    calls
        .map(|(number, call)| match number % 3 {
            0 => with_list(&call, &[2, 2], 0),
            1 => with_list(&call, b"", 100),
            _ => with_list(&call, &[2, 1], 100),
        })
        .collect()
}

/// Refusals 1 to 7 and 12, before 11.
pub fn damaged_least_forms() -> Vec<Call> {
    let calls = judged().into_iter().enumerate();
    calls
        .map(|(number, call)| lent(&call, if number % 2 == 0 { 0 } else { 100 }))
        .collect()
}

/// The list stands behind the case, whose length is told.
fn with_list(case: &Call, list: &[u8], output: u64) -> Call {
    Call {
        beside: [&case.beside, list].concat(),
        low: case.beside.len() as u64,
        ..lent(case, output)
    }
}

fn lent(case: &Call, output: u64) -> Call {
    Call { output, ..case.clone() }
}

fn renumbered(case: &Call, list: &[u8]) -> Call {
    let mut output = vec![0; case.beside.len()];
    renumber(&case.sheet, &case.beside, list, &mut output).expect("it is renumbered");
    judging(&case.sheet, output)
}

fn size(case: &Call) -> u8 {
    case.beside[12] - b'0'
}

/// Cases on which a mistake about arguments, values or the order of cells shows.
fn cases() -> Vec<Call> {
    let constants = sheet_of(&["a/0", "b/0", "c/0"], &["o/0"], &["- = a b"]);
    let map = sheet_of(&["f/1"], &[], &[]);
    let order = sheet_of(&[], &["r/2"], &["- r A A"]);
    let triple = sheet_of(&["h/3"], &["q/3"], &[]);
    let none = sheet_of(&[], &[], &[""]);
    let mut cases = vec![
        judging(&constants, "case=1\nsize=3\na=2\nb=3\nc=2\no=1\n"),
        judging(&constants, "case=1\nsize=8\na=8\nb=1\nc=5\no=0\n"),
        // two cycles of different lengths; one cycle; everything to one element
        judging(&map, "case=1\nsize=5\nf=2 1 4 5 3\n"),
        judging(&map, "case=1\nsize=4\nf=3 4 2 1\n"),
        judging(&map, "case=1\nsize=4\nf=4 4 4 4\n"),
        // the same under every rearrangement
        judging(&map, "case=1\nsize=6\nf=1 2 3 4 5 6\n"),
        judging(&order, "case=1\nsize=3\nr=1 1 1 1 1 1 1 1 1\n"),
        // an order and its reverse
        judging(&order, "case=1\nsize=3\nr=0 1 1 0 0 1 0 0 0\n"),
        judging(&order, "case=1\nsize=3\nr=0 0 0 1 0 0 1 1 0\n"),
        judging(&triple, "case=1\nsize=2\nh=1 1 2 1 2 2 1 2\nq=0 0 1 1 0 1 0 0\n"),
        judging(&none, "case=1\nsize=1\n"),
        judging(&none, "case=1\nsize=7\n"),
        judging(file("group.sheet"), file("group-6.case")),
    ];
    cases.extend((1..=8).map(|size| patterned(size, 3)));
    cases.extend((2..=4).map(|size| patterned(size, 7)));
    cases
}

/// A case with functions and predicates of up to two arguments; its entries go up by a step.
fn patterned(size: usize, step: usize) -> Call {
    let functions = ["a/0", "f/1", "g/2"];
    let predicates = ["p/1", "o/0", "r/2"];
    let entries = |declared: &str, least: usize, values: usize| {
        let (name, arity) = declared.split_once('/').expect("an arity stands there");
        let cells = size.pow(arity.parse().expect("it is a number"));
        let entry = |i: usize| (least + (i * step + i / 3 + step) % values).to_string();
        let entries: Vec<String> = (0..cells).map(entry).collect();
        format!("{name}={}\n", entries.join(" "))
    };
    let of_functions: String = functions.iter().map(|f| entries(f, 1, size)).collect();
    let of_predicates: String = predicates.iter().map(|p| entries(p, 0, 2)).collect();
    judging(
        sheet_of(&functions, &predicates, &["+ p a", "- = f A g A A"]),
        format!("case=1\nsize={size}\n{of_functions}{of_predicates}"),
    )
}

/// Some rearrangements of 1 to the size. Most are not their own reverse.
fn lists(size: u8) -> Vec<Vec<u8>> {
    let same: Vec<u8> = (1..=size).collect();
    let back: Vec<u8> = (1..=size).rev().collect();
    let turned = |by: usize| [&same[by..], &same[..by]].concat();
    let odd_first: Vec<u8> = (1..=size).step_by(2).chain((2..=size).step_by(2)).collect();
    let mut lists = vec![
        turned(0),
        back,
        turned(1 % size as usize),
        turned(size as usize - 1),
        odd_first,
    ];
    lists.dedup();
    lists
}

/// Lists that are no rearrangement of 1 to the size: too short, too long, an entry twice, 0, above the size, digits.
fn no_rearrangements(size: u8) -> Vec<Vec<u8>> {
    let same: Vec<u8> = (1..=size).collect();
    let with = |at: usize, number: u8| {
        let mut list = same.clone();
        list[at] = number;
        list
    };
    let last = same.len() - 1;
    let mut lists = vec![
        Vec::new(),
        same[..last].to_vec(),
        [&same[..], &[size + 1]].concat(),
        [&same[..], &[0]].concat(),
        [&same[..], &same[..]].concat(),
        with(0, size + 1),
        with(last, size + 1),
        with(0, 0),
        with(last, 0),
        with(last, 255),
        same.iter().map(|number| b'0' + number).collect(),
        (0..size).collect(),
        (2..=size + 1).collect(),
    ];
    if size > 1 {
        lists.extend([with(last, 1), with(0, size), vec![size; same.len()]]);
    }
    lists
}
