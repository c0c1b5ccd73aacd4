//! Good inputs: the specification's examples, the limits from both sides, and sheets whose answer a usual mistake changes.

use crate::calls::{
    answered, file, finding, finding_plain, importing, judging, reading, reading_back, searching, setting_of, writing,
};
use crate::calls::{Call, TOLD_NO};
use crate::{merging, renumbering};
use nesskettle_reference::sheet_of;
use nesskettle_reference::{
    find_plain_within, from_tptp, instances_and_variables, needed, setting, write, WriteOptions,
};

pub fn of(operation: &str) -> Vec<Call> {
    match operation {
        "read" => reads(),
        "judge" => judges(),
        "write" => writes(),
        "read_back" => read_backs(),
        "find" => finds(),
        "find_plain" => plain_finds(),
        "from_tptp" => imports(),
        "setting" => settings(),
        "from_solver" => answers(),
        "explain" => judges().into_iter().chain(explains()).collect(),
        "merge" => merging::examples(),
        "renumber" => renumbering::renumbers(),
        "least_form" => renumbering::least_forms(),
        other => panic!("no operation {other}"),
    }
}

pub fn two_constants() -> Vec<u8> {
    sheet_of(&["a/0", "b/0"], &[], &["- = a b"])
}

/// Pairs of free triples: 8^6 instances each at size 8.
fn triples(count: usize) -> Vec<u8> {
    sheet_of(&[], &["q/3"], &vec!["+ q A B C + q D E F"; count])
}

fn repeated(literal: &str, count: usize) -> Vec<u8> {
    sheet_of(&["a/0"], &["p/0", "q/3"], &[&vec![literal; count].join(" ")])
}

/// A clause of eight letters and more over three constants.
fn lettered(more: &str) -> Vec<u8> {
    sheet_of(
        &["a/0", "b/0", "c/0"],
        &["q/3"],
        &[&format!("+ q A B C + q D E F + q G H H{more}")],
    )
}

/// An accepted sheet of so many bytes.
pub fn full(length: usize) -> Vec<u8> {
    let mut clauses = vec![String::new(); 64];
    let made = |name: usize, clauses: &[String]| {
        let clauses: Vec<&str> = clauses.iter().map(String::as_str).collect();
        let name = format!("{}/0", "z".repeat(name));
        sheet_of(&["mnopqrstuvwx/0", &name], &["abcdefghijkl/3", "q/0"], &clauses)
    };
    for clause in 0..63 {
        while clauses[clause].len() < 600 && made(1, &clauses).len() + 54 <= length {
            let space = if clauses[clause].is_empty() { "" } else { " " };
            clauses[clause] += &format!("{space}+ abcdefghijkl mnopqrstuvwx mnopqrstuvwx mnopqrstuvwx");
        }
    }
    let left = length - made(1, &clauses).len();
    clauses[63] = vec!["+ q"; (left + 1) / 4].join(" ");
    let name = 1 + left - clauses[63].len();
    made(name, &clauses)
}

fn reads() -> Vec<Call> {
    let named = |letter: char| (0..12).map(|i| format!("{letter}{i}/{}", i % 4)).collect::<Vec<_>>();
    let (functions, predicates) = (named('f'), named('p'));
    let functions: Vec<&str> = functions.iter().map(String::as_str).collect();
    let predicates: Vec<&str> = predicates.iter().map(String::as_str).collect();
    let sheets = [
        two_constants(),
        sheet_of(&[], &[], &[]),
        sheet_of(&[], &[], &[""]),
        // literals, words and variables at their limits and over them
        repeated("+ p", 16),
        repeated("+ p", 17),
        repeated("- = A B", 16),
        repeated("- = A B", 17),
        repeated("+ q A B C", 12),
        repeated("+ q A B C", 13),
        lettered(""),
        lettered(" + q a b a"),
        lettered(" + q a b c"),
        lettered(" + q a b c - = A B"),
        lettered(" + = a b + = c a"),
        // counts at their limits
        sheet_of(&functions, &predicates, &["+ p0"; 64]),
        sheet_of(&functions, &[], &[]),
        sheet_of(&[], &predicates, &[""; 64]),
        sheet_of(
            &["abcdefghijkl/3", "sheet/0", "a_1/1"],
            &["funs/2", "b__9/0"],
            &["+ funs sheet a_1 sheet"],
        ),
        sheet_of(&["a/0", "b/0", "f/2"], &["p/2"], &["+ p f a b f b a"]),
        full(16_384),
        file("group.sheet"),
        file("million.sheet"),
    ];
    sheets.iter().map(reading).collect()
}

fn judges() -> Vec<Call> {
    let (group, tables) = (file("group.sheet"), file("group-6.case"));
    let changed = |old: &str, new: &str| String::from_utf8_lossy(&tables).replace(old, new);
    let single = sheet_of(&["a/0"], &["p/1"], &["+ p a", "- p A + = A a"]);
    let eight = sheet_of(
        &["f/3"],
        &["r/3"],
        &["+ r A A A", "- r A B C + = f A B C A", "+ = f A f B C D A f A B C"],
    );
    let values = |value: &str| vec![value; 512].join(" ");
    vec![
        // the lecture's group, and the same with b = a, with another product, with another inverse
        judging(&group, &tables),
        judging(&group, changed("b=3", "b=2")),
        judging(&group, changed("2 1 4 3 6 5", "2 1 4 3 5 6")),
        judging(&group, changed("inv=1 2 3 5 4 6", "inv=1 2 3 4 5 6")),
        judging(two_constants(), "case=1\nsize=2\na=1\nb=2\n"),
        judging(two_constants(), "case=1\nsize=2\na=2\nb=2\n"),
        judging(sheet_of(&[], &[], &[]), "case=1\nsize=8\n"),
        judging(sheet_of(&[], &[], &[""]), "case=1\nsize=1\n"),
        judging(sheet_of(&[], &[], &["+ = A B"]), "case=1\nsize=1\n"),
        judging(sheet_of(&[], &[], &["+ = A B"]), "case=1\nsize=2\n"),
        judging(sheet_of(&[], &[], &["- = A B"]), "case=1\nsize=1\n"),
        judging(sheet_of(&["f/1"], &[], &["- = f A A"]), "case=1\nsize=3\nf=2 1 1\n"),
        judging(sheet_of(&["f/1"], &[], &["- = f A A"]), "case=1\nsize=3\nf=2 1 3\n"),
        judging(&single, "case=1\nsize=2\na=1\np=1 0\n"),
        judging(&single, "case=1\nsize=2\na=2\np=1 0\n"),
        judging(&single, "case=1\nsize=2\na=2\np=1 1\n"),
        // the last argument runs fastest
        judging(sheet_of(&[], &["q/2"], &["+ q A A"]), "case=1\nsize=2\nq=1 0 0 1\n"),
        judging(
            sheet_of(&["a/0", "b/0"], &["q/2"], &["+ q a b"]),
            "case=1\nsize=2\na=1\nb=2\nq=0 1 0 0\n",
        ),
        judging(
            sheet_of(&["a/0", "b/0"], &["q/2"], &["+ q a b"]),
            "case=1\nsize=2\na=1\nb=2\nq=0 0 1 0\n",
        ),
        judging(
            &eight,
            format!("case=1\nsize=8\nf={}\nr={}\n", values("1"), values("0")),
        ),
        judging(
            &eight,
            format!("case=1\nsize=8\nf={}\nr={}\n", values("8"), values("1")),
        ),
    ]
}

/// Cases that do not fit, in which a usual mistake shows another clause or choice.
fn explains() -> Vec<Call> {
    let one = |clause: &str, size: usize, table: &str| {
        let sheet = sheet_of(&["f/1"], &["r/2"], &[clause]);
        let successors: Vec<String> = (0..size).map(|d| ((d + 1) % size + 1).to_string()).collect();
        judging(
            sheet,
            format!("case=1\nsize={size}\nf={}\nr={table}\n", successors.join(" ")),
        )
    };
    let ones = |count: usize| vec!["1"; count].join(" ");
    let all_but_last = |count: usize| ones(count - 1) + " 0";
    let several = |clauses: &[&str]| judging(sheet_of(&[], &["p/1"], clauses), "case=1\nsize=3\np=0 1 0\n");
    let last_of_many = [&["+ p A - p A"; 63][..], &["- p B"]].concat();
    vec![
        // letters in order of first appearance, as written, the last one fastest
        one("+ r A B", 2, "1 0 0 1"),
        one("+ r B A", 2, "1 0 0 1"),
        one("+ r B A", 2, "1 1 0 1"),
        one("+ r H A + r A H", 3, "1 1 0 1 1 1 0 1 1"),
        one("+ r C C", 3, "1 0 0 0 1 0 0 0 0"),
        one("+ r A B + r C D", 2, "1 1 0 1"),
        one("+ r D C + r B A", 2, "1 1 0 1"),
        // equalities of letters, turned and merged by steps 1 and 2, not here
        one("- = A B", 3, &ones(9)),
        one("- = B A + = A C", 3, &ones(9)),
        one("+ = A f B", 3, &ones(9)),
        one("- = C f B - r B A", 3, &ones(9)),
        // letters inside of terms, and one that the value does not depend on
        one("- r f f B f A", 3, "0 0 0 0 1 0 0 0 0"),
        one("- = A A - = B f f f B", 3, &ones(9)),
        one("- = B f f f B - = A A", 3, &ones(9)),
        // eight letters: the last of their choices, and one in the middle
        one("+ r A B + r C D + r E F + r G H", 3, &all_but_last(9)),
        one("+ r H G + r F E + r D C + r B A", 2, "1 0 1 1"),
        // the first of several clauses, though a later one fails sooner
        several(&["- p A", "+ p A"]),
        several(&["+ p A - p A", "- p B", ""]),
        several(&["+ p A - p A", "- p B + p B", "", "+ p A"]),
        several(&["+ p A + = A B"]),
        several(&last_of_many),
    ]
}

/// Sheets and sizes with texts that show steps 1 to 4.
fn written() -> Vec<(Vec<u8>, u64)> {
    let one = |clause: &str| sheet_of(&["a/0", "b/0", "f/1", "g/2"], &["p/1", "r/2"], &[clause]);
    let bare = |clause: &str| sheet_of(&[], &["p/1", "r/2"], &[clause]);
    vec![
        (two_constants(), 2),
        (two_constants(), 1),
        (sheet_of(&["a/0", "b/0", "f/2"], &["p/2"], &["+ p f a b f b a"]), 1),
        (sheet_of(&["a/0", "b/0", "f/2"], &["p/2"], &["+ p f a b f b a"]), 2),
        (sheet_of(&[], &[], &["+ = A B"]), 1),
        (sheet_of(&[], &[], &["+ = A B"]), 2),
        (sheet_of(&[], &[], &["- = A B"]), 3),
        (sheet_of(&[], &[], &["- = A A"]), 8),
        (sheet_of(&[], &[], &[]), 8),
        (sheet_of(&[], &[], &["", ""]), 4),
        (sheet_of(&["f/1"], &[], &["- = f A A"]), 3),
        // repeated literals, both signs of one atom, repeated clauses
        (bare("+ p A + p A"), 2),
        (bare("+ p A - p A"), 2),
        (sheet_of(&[], &["p/0"], &["+ p", "+ p", "- p", ""]), 2),
        // merged to the left of the deleted inequality too, chains, the leftmost first
        (bare("+ r A B - = A B + p B"), 2),
        (bare("+ p C - = A B - = B C + p A"), 2),
        (bare("+ p D - = A B + = A B - = C D + r C A"), 2),
        // turned, lifted on both sides, shared, the left side's own outer term kept
        (one("+ = A f B"), 2),
        (one("- = A f A"), 2),
        (one("+ = f A f B"), 2),
        (one("+ = a a"), 2),
        (one("+ = g a f a f a"), 2),
        (one("+ = f f A f f B"), 2),
        (one("+ p f f a - p f a + = f a b"), 2),
        (one("+ = g A B g B A"), 2),
        (one("- = A a + = B a + r A B"), 2),
        (one("+ r A B + r B A + = A B"), 3),
        (one("+ = A B + = a A - = B f A"), 3),
        // no variable, and ten
        (sheet_of(&["a/0"], &["p/1", "o/0"], &["+ o", "- o + p a"]), 3),
        (lettered(" + q a b a"), 1),
        (lettered(" + q a b a"), 2),
        (lettered(" + q a b a"), 3),
        (lettered(" + q a b a"), 4),
        (triples(3), 8),
        (triples(4), 8),
        (file("million.sheet"), 8),
        (sheet_of(&["h/3"], &[], &[]), 8),
        (file("group.sheet"), 3),
        (file("tournament.sheet"), 2),
    ]
}

fn writes() -> Vec<Call> {
    let mut calls = Vec::new();
    for (sheet, size) in written() {
        // a refusal 11 also tells the length, so that no text has to be written to see that it is taken
        let length = match write(&sheet, size, WriteOptions::default(), &mut []) {
            Err(refusal) => refusal.needed,
            Ok(length) => length as u64,
        };
        if length == 0 || length > crate::MOST_OUTPUT {
            calls.push(writing(&sheet, size, 1_000));
            continue;
        }
        calls.push(writing(&sheet, size, length));
        if length < 100 {
            calls.push(writing(&sheet, size, length - 1));
            calls.push(writing(&sheet, size, length + 10));
        }
    }
    for size in [0, 9, 10, 256, u64::MAX] {
        calls.push(writing(two_constants(), size, 1_000));
    }
    for size in [3, 7, 8] {
        calls.push(writing(two_constants(), size, 10_000));
    }
    calls
}

fn read_backs() -> Vec<Call> {
    let two = two_constants();
    let back = |setting: &[u8], output: u64| reading_back(&two, 2, setting, output);
    let mixed = sheet_of(&["a/0", "f/1"], &["p/0", "r/2"], &["+ p"]);
    let variables = instances_and_variables(&mixed, 3, WriteOptions::default())
        .expect("the sheet is taken")
        .1 as usize;
    let third = |cells: [usize; 4], tail: u8| {
        let mut setting = vec![0; variables];
        cells
            .iter()
            .enumerate()
            .for_each(|(cell, value)| setting[3 * cell + value] = 1);
        setting[12..]
            .iter_mut()
            .enumerate()
            .for_each(|(i, b)| *b = (tail >> (i % 8)) & 1);
        setting
    };
    let length = needed(&mixed, 3, TOLD_NO).expect("the sheet is taken").1;
    let mut calls = vec![
        back(&[0, 1, 1, 0], 22),
        back(&[0, 1, 1, 0], 23),
        back(&[0, 1, 1, 0], 21),
        back(&[1, 0, 1, 0], 100),
        back(&[1, 1, 0, 0], 22),
        back(&[1, 0, 1, 1], 22),
        back(&[0, 0, 1, 0], 22),
        back(&[0, 1, 0, 0], 0),
        back(&[0, 1, 1], 22),
        back(&[0, 1, 1, 0, 0], 22),
        back(&[], 22),
        back(&[0, 1, 2, 0], 22),
        back(&[0, 1, 255, 0], 22),
        back(b"0110", 22),
        back(&[2, 2, 2, 2], 0),
        reading_back(&mixed, 3, &third([0, 2, 1, 2], 0b1011_0101), length),
        reading_back(&mixed, 3, &third([2, 2, 2, 2], 0b0100_1110), length + 5),
        reading_back(&mixed, 3, &third([1, 0, 0, 0], 0), length - 1),
        reading_back(sheet_of(&[], &[], &[]), 8, &[], 14),
        reading_back(sheet_of(&[], &[], &[""]), 1, &[], 14),
        reading_back(sheet_of(&[], &[], &[""]), 1, &[], 13),
        reading_back(sheet_of(&[], &["p/1"], &[]), 8, &[0, 1, 0, 1, 1, 1, 0, 0], 40),
        reading_back(sheet_of(&[], &["p/1"], &[]), 8, &[0, 1, 0, 1, 1, 1, 0], 40),
        // Read back takes a sheet that Write refuses by 9
        reading_back(triples(4), 8, &[1; 512], 2_000),
    ];
    for size in [0, 9, u64::MAX] {
        calls.push(reading_back(&two, size, &[0, 1, 1, 0], 22));
    }
    calls
}

/// Cases, models or not, most with just the output that their setting needs, one byte less, and more.
fn settings() -> Vec<Call> {
    let mixed = sheet_of(&["a/0", "f/1"], &["p/0", "r/2"], &["+ p"]);
    let constant_second = sheet_of(&["f/1", "a/0", "g/2"], &["r/1"], &[]);
    let mut cases = judges();
    cases.extend([
        judging(&mixed, "case=1\nsize=1\na=1\nf=1\np=0\nr=1\n"),
        judging(&mixed, "case=1\nsize=3\na=3\nf=2 1 3\np=1\nr=0 1 1 0 0 0 1 0 1\n"),
        judging(&constant_second, "case=1\nsize=2\nf=2 1\na=1\ng=1 2 2 1\nr=0 1\n"),
        judging(sheet_of(&[], &["p/1"], &[]), "case=1\nsize=8\np=0 1 0 1 1 1 0 0\n"),
        judging(sheet_of(&["a/0"], &[], &[]), "case=1\nsize=8\na=8\n"),
        full_case(8),
        // Setting takes a sheet that Write refuses by 9
        judging(triples(4), format!("case=1\nsize=8\nq={}\n", vec!["1"; 512].join(" "))),
    ]);
    let mut calls = Vec::new();
    for case in cases {
        let needed = setting(&case.sheet, &case.beside, &mut []).map_or_else(|refusal| refusal.needed, |_| 0);
        let outputs = [Some(needed), needed.checked_sub(1), Some(needed + 9)];
        let lent = |output: u64| setting_of(&case.sheet, &case.beside, output);
        calls.extend(outputs.into_iter().flatten().map(lent));
    }
    calls
}

/// As many cells as a case of this size can have, each table another.
pub fn full_case(size: usize) -> Call {
    let declared = |key: &str| -> String {
        let lines: String = (0..12).map(|n| format!("{key}={key}{n}/3\n")).collect();
        format!("{key}s=12\n{lines}")
    };
    let sheet = format!("sheet=1\n{}{}clauses=0\n", declared("fun"), declared("pred"));
    let line = |key: &str, n: usize, least: usize, values: usize| {
        let entries: Vec<String> = (0..size.pow(3))
            .map(|i| (least + (i * n + i / 7) % values).to_string())
            .collect();
        format!("{key}{n}={}\n", entries.join(" "))
    };
    let functions: String = (0..12).map(|n| line("fun", n, 1, size)).collect();
    let predicates: String = (0..12).map(|n| line("pred", n, 0, 2)).collect();
    judging(sheet, format!("case=1\nsize={size}\n{functions}{predicates}"))
}

fn finds() -> Vec<Call> {
    let two = two_constants();
    let moved = sheet_of(&["f/1"], &[], &["- = f A A"]);
    let single = sheet_of(&["a/0"], &["p/1"], &["+ p a", "- p A + = A a"]);
    let three = sheet_of(&["a/0", "b/0", "c/0"], &[], &["- = a b", "- = a c", "- = b c"]);
    let nothing = sheet_of(&[], &[], &[]);
    let mut calls = vec![
        searching(&two, 1, 1),
        searching(&two, 1, 2),
        searching(&two, 1, 3),
        searching(&two, 3, 3),
        searching(sheet_of(&[], &[], &["+ = A B"]), 1, 1),
        searching(sheet_of(&[], &[], &["+ = A B"]), 2, 8),
        searching(sheet_of(&[], &[], &["- = A B"]), 1, 8),
        searching(sheet_of(&[], &[], &[""]), 1, 8),
        searching(&nothing, 1, 1),
        searching(&nothing, 3, 8),
        searching(&moved, 1, 1),
        searching(&moved, 1, 2),
        searching(&moved, 1, 3),
        searching(&moved, 2, 2),
        searching(&moved, 3, 3),
        searching(&moved, 8, 8),
        searching(&single, 2, 2),
        searching(&single, 1, 4),
        // the first model in the middle of the sizes
        searching(&three, 1, 5),
        searching(&three, 1, 2),
        searching(&three, 4, 8),
        searching(
            sheet_of(
                &["s/1"],
                &["less/2"],
                &["- less A A", "- less A B - less B A", "+ less A s A"],
            ),
            1,
            5,
        ),
    ];
    calls.extend(least_models());
    calls.extend(settled_marks());
    calls.extend(limits_of_find());
    calls.extend(harder_problems());
    calls
}

/// The least model is not the one that values for literals of one sign only would give.
fn least_models() -> Vec<Call> {
    let sheets = [
        (sheet_of(&[], &["p/1", "q/1"], &["+ p A + q A"]), 2),
        (sheet_of(&[], &["p/1", "q/1"], &["- p A - q A"]), 2),
        (sheet_of(&[], &["p/0", "q/0", "r/0"], &["+ p + q", "+ p + r"]), 1),
        (sheet_of(&[], &["p/0", "q/0", "r/0"], &["+ q + r", "- q + p"]), 1),
        (
            sheet_of(&["a/0", "b/0"], &["p/1"], &["+ p a", "+ p b", "- p a - p b"]),
            3,
        ),
        (sheet_of(&["a/0", "b/0"], &["p/1"], &["+ p a", "- p b"]), 2),
        (
            sheet_of(&["a/0", "b/0", "c/0"], &[], &["- = a c + = b c", "- = a b"]),
            3,
        ),
        (sheet_of(&["f/1"], &[], &["+ = f f A A", "- = f A A"]), 4),
        (sheet_of(&["f/1", "c/0"], &[], &["- = f A f B + = A B", "- = f c c"]), 3),
        (sheet_of(&["m/2"], &[], &["+ = m A A A", "- = m A B m B A + = A B"]), 3),
        (sheet_of(&["m/2"], &[], &["+ = m A m B A B"]), 3),
        (
            sheet_of(
                &[],
                &["r/2"],
                &["- r A A", "+ r A B + r B A + = A B", "- r A B - r B A"],
            ),
            3,
        ),
    ];
    sheets.iter().map(|(sheet, size)| searching(sheet, 1, *size)).collect()
}

/// Settled: low is 1, no function has arguments, and high is at least the number of constants.
fn settled_marks() -> Vec<Call> {
    let constants = |count: usize, more: &[&str]| {
        let mut names = vec!["a/0", "b/0", "c/0"];
        names.truncate(count);
        sheet_of(&[&names, more].concat(), &["p/0"], &["+ p", "- p"])
    };
    let sheets = [
        (constants(0, &[]), 1, 1),
        (constants(2, &[]), 1, 1),
        (constants(2, &[]), 1, 2),
        (constants(2, &[]), 2, 3),
        (constants(3, &[]), 3, 3),
        (constants(3, &[]), 1, 2),
        (constants(1, &["f/1"]), 1, 3),
        (constants(0, &["f/2"]), 1, 2),
        (constants(0, &[]), 2, 2),
        (constants(1, &[]), 1, 1),
        (constants(1, &[]), 2, 8),
        (constants(3, &[]), 1, 3),
        (constants(3, &[]), 1, 8),
        (constants(3, &["f/1"]), 1, 4),
        // a model has one element
        (sheet_of(&[], &[], &["+ = A B"]), 3, 5),
        (sheet_of(&["a/0"], &["p/1"], &["+ = A a", "+ p A"]), 2, 4),
    ];
    sheets
        .iter()
        .map(|(sheet, low, high)| searching(sheet, *low, *high))
        .collect()
}

/// Low and high, and what is lent one short, exact and more than needed.
fn limits_of_find() -> Vec<Call> {
    let two = two_constants();
    let (work, output) = needed(&two, 3, TOLD_NO).expect("the sheet is taken");
    vec![
        finding(&two, 1, 3, work - 1, output),
        finding(&two, 1, 3, work, output),
        finding(&two, 1, 3, work + 3, output + 3),
        finding(&two, 1, 3, work, output - 1),
        finding(&two, 1, 3, work - 1, output - 1),
        finding(&two, 1, 3, 0, 0),
        finding(&two, 1, 1, work, output),
        finding(&two, 0, 3, work, output),
        finding(&two, 1, 9, work, output),
        finding(&two, 3, 2, work, output),
        finding(&two, 0, 0, work, output),
        finding(&two, 9, 9, work, output),
        finding(&two, u64::MAX, u64::MAX, work, output),
        finding(&two, 1, u64::MAX, work, output),
        finding(&two, 0, 9, 0, 0),
        // 9 and 10 look at high, also where a smaller size has a model
        finding(triples(4), 1, 8, 1_000, 2_000),
        finding(triples(3), 1, 8, 1_000, 2_000),
        finding(triples(4), 1, 7, 1_000, 2_000),
        finding(lettered(" + q a b a"), 1, 4, 1_000, 2_000),
        finding(lettered(" + q a b a"), 1, 3, 1_000, 2_000),
        searching(lettered(" + q a b a"), 1, 1),
    ]
}

/// The named problems at sizes that they need little work for.
fn harder_problems() -> Vec<Call> {
    let named = [
        ("group", 1, 2),
        ("exponent-2", 1, 3),
        ("quasigroup-3", 1, 4),
        ("quasigroup-5", 2, 5),
        ("pigeonhole", 1, 6),
        ("serial-order", 1, 4),
        ("tournament", 1, 4),
        ("steiner", 1, 3),
        ("lattice", 1, 3),
    ];
    let calls = named
        .iter()
        .map(|(name, low, high)| searching(file(&format!("{name}.sheet")), *low, *high));
    calls.collect()
}

/// Find's inputs, but those on which the plain search would try many cases, and the limit of cells from both sides.
fn plain_finds() -> Vec<Call> {
    const MOST_CASES: u64 = 20_000;
    let as_plain = |call: Call| finding_plain(call.sheet, call.low, call.high, call.output);
    let is_quick = |call: &Call| {
        let mut output = vec![0; call.output as usize];
        let within = find_plain_within(&call.sheet, call.low, call.high, &mut output, MOST_CASES);
        !matches!(within, Ok(None))
    };
    let mut calls: Vec<Call> = finds().into_iter().map(as_plain).filter(is_quick).collect();
    calls.extend(limits_of_cells());
    calls
}

/// 64 cells are taken, at each size that can have them, and one more is refused; with the output that a case needs, one byte
/// less, and more.
fn limits_of_cells() -> Vec<Call> {
    let unary_first: Vec<String> = (0..12).map(|n| format!("c{n}/{}", usize::from(n < 4))).collect();
    let unary_first: Vec<&str> = unary_first.iter().map(String::as_str).collect();
    let shapes: [(u64, &[&str], &[&str], &str); 9] = [
        (
            2,
            &["g/3", "h/3"],
            &["t/3", "u/3", "v/3", "w/3", "x/3", "y/3"],
            "+ y A A B",
        ),
        (3, &["f/3"], &["o/0", "t/3", "r/2"], "+ r A A"),
        (4, &[], &["t/3"], "- t A B C + = A B"),
        (4, &["f/2", "m/2"], &["r/2", "p/1", "q/1", "s/1", "u/1"], "+ u A - q A"),
        (5, &["a/0", "b/0", "f/2"], &["o/0", "r/2", "n/0", "p/1", "q/1"], "+ q A"),
        (
            6,
            &["a/0", "b/0", "f/2", "g/1", "c/0"],
            &["p/1", "q/1", "o/0", "s/1"],
            "+ s A",
        ),
        (7, &["f/2"], &["p/1", "o/0", "q/1"], "+ q A"),
        (8, &[], &["r/2"], "- r A A"),
        (8, &unary_first, &["p/1", "q/1", "r/1"], "+ r A"),
    ];
    let mut calls = Vec::new();
    for (high, functions, predicates, clause) in shapes {
        for more in [&[][..], &["more/0"]] {
            let sheet = sheet_of(functions, &[more, predicates].concat(), &[clause]);
            let (_, needed) = needed(&sheet, high, TOLD_NO).expect("the sheet is taken");
            calls.extend([needed, needed - 1, needed + 9].map(|output| finding_plain(&sheet, high, high, output)));
            calls.push(finding_plain(&sheet, 1, high, needed));
        }
    }
    let cells = sheet_of(&["a/0"], &["r/2"], &["- r A A"]);
    calls.extend([
        // 8 before 20 before 11, and 20 though a smaller size has a model
        finding_plain(&cells, 0, 8, 0),
        finding_plain(&cells, 1, 9, 0),
        finding_plain(&cells, 3, 2, 0),
        finding_plain(&cells, 1, 8, 0),
        finding_plain(&cells, 1, 7, 0),
        finding_plain(&cells, 1, 7, 200),
    ]);
    calls
}

/// TPTP clauses that are taken, most with just the output that they need, one byte less, and more.
fn imports() -> Vec<Call> {
    let statements = |clauses: &[&str]| -> String {
        let statement = |clause: &&str| format!("cnf(a,axiom,{clause}).\n");
        clauses.iter().map(statement).collect()
    };
    let taken = [
        String::new(),
        "cnf(a,axiom,p(X)|~q(f(X),b)).".to_string(),
        "% a comment\n/* and * another */ cnf(a , plain , $false ) .%".to_string(),
        "cnf(1,x_Y,(p|$false|~p)).\r\n\tcnf(01,axiom,($false)).".to_string(),
        statements(&["X=Y", "X!=Y", "~X=f(Y)", "f(a)=a|p(f(X))"]),
        // functions before predicates, each in order of first appearance, and letters by clause
        statements(&["p(g(X,Y))|q", "r(Y,f(X),b)|q", "a=X|p(X)"]),
        // names that are words of the format
        statements(&["cnf|axiom(include)|fof", "sheet=clause|fun(pred)"]),
        // eight variables, sixteen literals, arity 3, names of twelve bytes
        statements(&[
            "q(A,B,C)|q(D,E,F)|q(G,H,H)",
            &vec!["p"; 16].join("|"),
            "abcdefghijk1(x_______y_2,X)",
        ]),
        // twelve of a kind, sixty-four clauses
        (0..12).map(|i| statements(&[&format!("p{i}(f{i})")])).collect(),
        statements(&["p"; 64]),
        // ten variables after flattening
        statements(&["p(f(f(f(f(f(f(f(f(f(X))))))))))"]),
    ];
    let mut calls = Vec::new();
    for text in &taken {
        let refusal = from_tptp(text.as_bytes(), &mut []).expect_err("no sheet is empty");
        let needed = refusal.needed;
        assert!(needed > 0, "{refusal} of {text}");
        calls.extend([needed, needed - 1, needed + 9].map(|output| importing(text, output)));
    }
    calls
}

/// Answers of solvers that are not refused by 18: models in several layouts, with the output that the case needs, one byte
/// less, and more; other cases; and claims of none.
fn answers() -> Vec<Call> {
    let nothing = sheet_of(&[], &[], &[]);
    let two = two_constants();
    let taken = [
        "s SATISFIABLE\nv 1 -2 -3 4 0\n",
        "s SATISFIABLE\nv 4 -3 -2 1 0\n",
        "c a solver\ns SATISFIABLE\nc\nv -1\nv 2 3\ncnf\nv -4\nv 0\nc v 1 0\n",
        "s SATISFIABLE\nv -4 3\nv 2 -1\nv 0\n",
    ];
    let mut calls: Vec<Call> = taken
        .iter()
        .flat_map(|text| [22, 21, 30, 0].map(|output| answered(&two, 2, text, output)))
        .collect();
    calls.extend([
        // 14 before 19 before 11
        answered(&two, 2, "s SATISFIABLE\nv 1 2 3 4 0\n", 0),
        answered(&two, 2, "s SATISFIABLE\nv -1 -2 3 -4 0\n", 22),
        answered(&two, 2, "s SATISFIABLE\nv 1 -2 3 -4 0\n", 22),
        answered(&two, 2, "s SATISFIABLE\nv 1 -2 3 -4 0\n", 0),
        answered(&two, 1, "s SATISFIABLE\nv 1 2 0\n", 22),
        // a claim of none, true or not, and whatever the output
        answered(&two, 1, "s UNSATISFIABLE\n", 22),
        answered(&two, 2, "c\ns UNSATISFIABLE\nc\n", 22),
        answered(&two, 2, "s UNSATISFIABLE\n", 0),
        answered(&nothing, 8, "s UNSATISFIABLE\n", 0),
        // no variable at all
        answered(&nothing, 8, "s SATISFIABLE\nv 0\n", 14),
        answered(&nothing, 8, "s SATISFIABLE\nv 0\n", 13),
        answered(sheet_of(&[], &[], &[""]), 1, "s SATISFIABLE\nv 0\n", 14),
        // a sheet that Write refuses by 9
        answered(triples(4), 8, stating(&[1; 512]), 2_000),
        answered(triples(4), 8, stating(&[0; 512]), 2_000),
    ]);
    let group = judging(file("group.sheet"), file("group-6.case"));
    for (
        size,
        Call {
            sheet, beside: case, ..
        },
    ) in [(6, group), (4, full_case(4))]
    {
        let (_, variables) =
            instances_and_variables(&sheet, size, WriteOptions::default()).expect("the sheet is taken");
        let mut bytes = vec![0; variables as usize];
        setting(&sheet, &case, &mut bytes).expect("it is a case");
        let (text, needed) = (stating(&bytes), case.len() as u64);
        calls.extend([needed, needed - 1].map(|output| answered(&sheet, size, &text, output)));
    }
    calls
}

/// An answer that states the setting in lines of ten numbers, from the last variable to the first.
fn stating(setting: &[u8]) -> String {
    let signed = |(&byte, variable): (&u8, usize)| format!("{}{variable}", if byte == 1 { "" } else { "-" });
    let numbers: Vec<String> = setting.iter().zip(1..).map(signed).collect();
    let numbers: Vec<String> = numbers.into_iter().rev().collect();
    let lines: String = numbers
        .chunks(10)
        .map(|line| format!("v {}\n", line.join(" ")))
        .collect();
    format!("s SATISFIABLE\n{lines}v 0\n")
}
