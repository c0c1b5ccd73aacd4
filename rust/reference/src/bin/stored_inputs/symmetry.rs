//! Inputs of Write and Find with constant clauses: more and fewer constants than elements, other functions before and between
//! them, helpers beside them, and what the clauses add to the counts from both sides.

use crate::calls::{file, finding, largest, searching_of, taken_or, with_lengths, writing, Call};
use crate::damaged::one_of_each;
use crate::examples::two_constants;
use nesskettle_reference::{instances_and_variables, needed, sheet_of, MAX_INSTANCES};
use nesskettle_reference::{FindOptions, Symmetry, Terms, WriteOptions};

pub fn of(operation: &str, terms: Terms) -> Vec<Call> {
    let symmetry = Symmetry::Reduced;
    match operation {
        "write" => writes(WriteOptions { terms, symmetry }),
        "find" => finds(largest(terms, symmetry)),
        other => panic!("no operation {other} has constant clauses"),
    }
}

/// A sheet of so many constants, no two of them equal.
fn different(count: usize) -> Vec<u8> {
    let names: Vec<String> = (1..=count).map(|i| format!("a{i}/0")).collect();
    let names: Vec<&str> = names.iter().map(String::as_str).collect();
    let pairs = (1..=count).flat_map(|i| (1..i).map(move |j| format!("- = a{j} a{i}")));
    // a sheet has 64 clauses at most
    let clauses: Vec<String> = pairs.take(64).collect();
    let clauses: Vec<&str> = clauses.iter().map(String::as_str).collect();
    sheet_of(&names, &[], &clauses)
}

/// Sheets whose text or least case a mistake about the constants changes.
fn sheets() -> Vec<Vec<u8>> {
    vec![
        // no constant
        sheet_of(&[], &["o/0"], &["+ o"]),
        sheet_of(&["f/1"], &[], &["- = f A A"]),
        // one, two, three
        sheet_of(&["a/0"], &["p/1"], &["- p a", "+ p A + = A a"]),
        two_constants(),
        sheet_of(
            &["a/0", "b/0", "c/0"],
            &["p/1"],
            &["- p a", "+ p b", "- = b c", "+ p c"],
        ),
        sheet_of(&["a/0", "b/0", "c/0"], &[], &["+ = a b", "- = b c"]),
        // behind other functions, between them, around them
        sheet_of(&["f/1", "a/0"], &[], &["- = f A A", "- = f f a a"]),
        sheet_of(
            &["f/1", "a/0", "g/2", "b/0"],
            &["r/2"],
            &["- = a b", "+ = f b a", "+ r a b"],
        ),
        sheet_of(&["a/0", "f/1", "b/0"], &["p/1"], &["- = f A A", "- = a b", "+ p f b"]),
        sheet_of(&["f/1", "a/0", "b/0"], &[], &["+ = f a b", "- = f A A", "- = f f A A"]),
        // the least case of all does not obey the clauses
        sheet_of(&["f/1", "a/0"], &[], &["+ = f a a", "- = f A A + = A a"]),
        sheet_of(&["f/1", "a/0", "b/0"], &[], &["- = f a a", "- = f b b", "+ = f a b"]),
        // fixed terms: their helpers are constants that no sheet declares
        sheet_of(&["f/1", "a/0"], &["p/1"], &["+ p f a", "- p f f a", "- p a"]),
        sheet_of(
            &["a/0", "f/1", "b/0"],
            &["p/1", "o/0"],
            &["+ p f a + o", "- = f b f a", "- p f f b"],
        ),
    ]
}

fn writes(options: WriteOptions) -> Vec<Call> {
    let mut calls = Vec::new();
    for sheet in sheets() {
        calls.extend((1..=4).flat_map(|size| with_lengths(&sheet, size, options)));
    }
    for count in [3, 8, 9, 12] {
        calls.extend(
            [1, 2, 7, 8]
                .map(|size| with_lengths(&different(count), size, options))
                .concat(),
        );
    }
    let [most, over] = most_instances(options);
    calls.extend([most, over.clone()].map(|sheet| writing(sheet, 8, 1_000)));
    calls.extend([0, 9, 258, u64::MAX].map(|size| writing(&over, size, 10)));
    calls.extend(one_of_each().into_iter().map(|sheet| writing(sheet, 0, 10)));
    calls.push(writing(file("group.sheet"), 3, 65_000));
    calls
}

/// A sheet with as many instances at size 8 as are taken, the constant clauses among them; and one with one more.
fn most_instances(options: WriteOptions) -> [Vec<u8>; 2] {
    let most = file("million-constant.sheet");
    let text = String::from_utf8_lossy(&most);
    let over = text.replace("clauses=20", "clauses=21") + "clause=+ o\n";
    let instances = |sheet: &[u8]| instances_and_variables(sheet, 8, options).map(|(instances, _)| instances);
    assert_eq!(instances(&most), Ok(MAX_INSTANCES));
    assert_eq!(instances(over.as_bytes()), Ok(MAX_INSTANCES + 1));
    [most, over.into_bytes()]
}

fn finds(options: FindOptions) -> Vec<Call> {
    let mut calls = Vec::new();
    for sheet in sheets() {
        calls.extend([(1, 4), (2, 2), (3, 3)].map(|(low, high)| searching_of(&sheet, low, high, options)));
    }
    for (count, low, high) in [
        (3, 1, 2),
        (3, 1, 3),
        (5, 1, 4),
        (5, 5, 6),
        (8, 7, 7),
        (8, 8, 8),
        (12, 8, 8),
    ] {
        calls.push(searching_of(different(count), low, high, options));
    }
    for (name, low, high) in [
        ("group", 1, 3),
        ("exponent-2", 1, 4),
        ("pigeonhole", 1, 5),
        ("lattice", 1, 3),
    ] {
        calls.push(taken_or(&file(&format!("{name}.sheet")), low, high, options));
    }
    calls.extend(limits_of_find(options));
    calls.extend(one_of_each().into_iter().map(|sheet| finding(sheet, 0, 9, 3, 10)));
    calls
}

/// Low and high, and what is lent one short, exact and more than needed; which refusal comes first.
fn limits_of_find(options: FindOptions) -> Vec<Call> {
    let FindOptions { terms, symmetry, .. } = options;
    let told_no = FindOptions {
        symmetry: Symmetry::Kept,
        ..options
    };
    let sheet = sheet_of(&["a/0", "f/1", "b/0"], &["p/1"], &["+ p f a", "- p b"]);
    let (work, output) = needed(&sheet, 3, options).expect("the sheet is taken");
    let (less, _) = needed(&sheet, 3, told_no).expect("the sheet is taken");
    let [most, over] = most_instances(WriteOptions { terms, symmetry });
    vec![
        finding(&sheet, 1, 3, work - 1, output),
        finding(&sheet, 1, 3, work, output),
        finding(&sheet, 1, 3, work + 1, output + 7),
        // enough without the constant clauses
        finding(&sheet, 1, 3, less, output),
        finding(&sheet, 1, 3, work, output - 1),
        finding(&sheet, 1, 3, 0, 0),
        finding(&sheet, 0, 3, work, output),
        finding(&sheet, 1, 9, work, output),
        finding(&sheet, 3, 2, work, output),
        // 8, 9, 10
        finding(&over, 0, 8, 0, 0),
        finding(&over, 1, 8, 0, 0),
        finding(&most, 1, 8, 0, 0),
    ]
}
