//! Inputs of the operations that name fixed terms: examples, limits from both sides, settings with helper cells, and what a
//! usual mistake about helpers would change.

use crate::calls::{
    file, finding, largest, reading_back, searching_of, taken_or, with_lengths, writing, Call, TOLD_NO,
};
use crate::damaged::one_of_each;
use crate::examples::two_constants;
use nesskettle_reference::{find, instances_and_variables, needed, read_back, sheet_of};
use nesskettle_reference::{FindOptions, Symmetry, Terms, WriteOptions};

const WRITTEN: WriteOptions = WriteOptions {
    terms: Terms::Named,
    symmetry: Symmetry::Kept,
};
const SEARCHED: FindOptions = largest(Terms::Named, Symmetry::Kept);

pub fn of(operation: &str) -> Vec<Call> {
    match operation {
        "write" => writes(),
        "read_back" => read_backs(),
        "find" => finds(),
        other => panic!("no operation {other} names terms"),
    }
}

/// A sheet over two constants, functions of each arity and predicates of each arity.
fn over(clauses: &[&str]) -> Vec<u8> {
    let functions = ["a/0", "b/0", "f/1", "g/2", "h/3"];
    sheet_of(&functions, &["o/0", "p/1", "r/2", "q/3"], clauses)
}

/// The same with few and small tables.
fn small(clauses: &[&str]) -> Vec<u8> {
    sheet_of(&["a/0", "b/0", "f/1"], &["p/1", "o/0"], clauses)
}

/// `f` so many times on a term.
fn deep(times: usize, term: &str) -> String {
    "f ".repeat(times) + term
}

/// Sheets in which terms are named, each with what a mistake would change.
fn naming() -> Vec<Vec<u8>> {
    vec![
        // the paper's example
        sheet_of(&["a/0", "b/0", "f/2"], &["p/2"], &["+ p f a b f b a"]),
        // no term to name: constants, variables, nothing
        two_constants(),
        sheet_of(&[], &[], &[""]),
        small(&["+ p f A - p a", "- = f A A"]),
        // shared in a clause, over clauses, and in the order of first appearance
        small(&["+ p f a - p f f b + = f a f f b"]),
        small(&["+ p f b", "- o", "+ p f a + o", "- p f b - p f a"]),
        // inner terms are not named, also where another clause has them outermost
        small(&["+ p f f a", "- p f a"]),
        small(&["+ p f a", "- p f f a"]),
        // either side of an equality, both, and the one of variables
        small(&["+ = f a A"]),
        small(&["+ = A f a", "- = f b a"]),
        small(&["- = f a f b", "+ = f a f a"]),
        small(&["- = A B - = f A f b + p A", "+ p B - = f b B"]),
        // a term with a variable keeps its place, and what is fixed inside of it is named
        sheet_of(&["a/0", "g/2"], &["r/2"], &["+ r g A g a a g a g a A", "- r g a a a"]),
        // helpers behind the predicates, whose variables are tried no first, theirs yes first
        sheet_of(
            &["f/1", "a/0"],
            &["p/1", "o/0"],
            &["+ p f a + o", "- p f f a", "- = f a a"],
        ),
        sheet_of(&["a/0", "f/1"], &["r/2"], &["- = f f a a", "+ r f f a A - r A f f a"]),
        // equal words though unlike in the text before, and unlike words though equal in value
        small(&["+ p f a + p f a", "+ = f a a", "- p f f a + p f f a"]),
        sheet_of(
            &["ff/1", "f/1", "a/0"],
            &["p/1"],
            &["+ p ff a - p f f a", "+ = f a f f a"],
        ),
    ]
}

/// A line of over two thousand words: twelve literals of three terms, each of 61 words and ten different terms.
fn long_line() -> Vec<u8> {
    let branch = "h g a b g b a f a";
    let tree = |first: [&str; 3], second: [&str; 3], third: [&str; 3]| {
        format!("h h {} h {} h {}", first.join(" "), second.join(" "), third.join(" "))
    };
    let terms = [
        tree(["a", branch, branch], [branch, "a", branch], [branch, branch, "a"]),
        tree([branch, "b", branch], ["b", branch, branch], [branch, branch, "b"]),
        tree([branch, branch, "a"], [branch, "a", branch], ["a", branch, branch]),
    ];
    let literal = format!("+ q {}", terms.join(" "));
    over(&[&vec![literal; 12].join(" "), "+ o"])
}

/// Sheets around limit 7, in clauses with the names put in and in the helpers' own; some are taken as written and not here,
/// some the other way.
fn around_limits() -> Vec<Vec<u8>> {
    let sixteen = |last: &str| format!("{} {last}", ["+ p f f a"; 15].join(" "));
    // terms of 40, 13 and 7 words make one of 61
    let (thirteen, seven) = ("h h a a a h a a a h a a a", "g g a a g a a");
    let sixty_one = format!("h {} {thirteen} {seven}", full_tree());
    vec![
        // ten variables in a helper's own clause, and eleven
        over(&[&format!("+ p {}", deep(9, "a"))]),
        over(&[&format!("+ p {}", deep(10, "a"))]),
        // the same, equal to a constant: ten variables as written, eleven in the helper's own
        over(&[&format!("+ = {} a", deep(9, "b"))]),
        over(&[&format!("+ = {} a", deep(10, "a"))]),
        // a clause of many variables as written, of two with the names put in
        over(&[&format!("+ r {} {}", deep(6, "a"), deep(6, "b"))]),
        over(&[&format!("+ r {} {} - p {}", deep(8, "a"), deep(8, "b"), deep(9, "b"))]),
        // ten and eleven different names in a clause, lifted; and on the left of equalities
        over(&[&names_in_a_clause(10)]),
        over(&[&names_in_a_clause(11)]),
        over(&[&(0..16)
            .map(|i| format!("+ = {} a", term(i)))
            .collect::<Vec<_>>()
            .join(" ")]),
        // sixteen and seventeen literals
        over(&[&sixteen("- p f f a")]),
        over(&[&sixteen("- p f f a + o")]),
        // 64 and 65 words with the names put in, more as written
        over(&[&(["+ q A f a B"; 12].join(" ") + " + r f a f a")]),
        over(&[&(["+ q A f a B"; 12].join(" ") + " + q f a f a f a")]),
        // 64 and 65 words in a helper's own clause
        over(&[&format!("+ p {sixty_one}")]),
        over(&[&format!("+ p {}", sixty_one.replacen("g g a a", "g f g a a", 1))]),
        over(&[&format!("+ p {}", full_tree())]),
        long_line(),
        // the line of the term's first appearance, though the fault is the same on a later one
        over(&[
            "+ o",
            &format!("+ r {} {}", deep(10, "a"), deep(10, "b")),
            &format!("+ p {}", deep(10, "a")),
        ]),
        // 5 and 6 before 7 on one line, 7 before 5 on a later one
        over(&[&format!("+ p {} x", deep(10, "a"))]),
        over(&[&format!("+ p {} a", deep(10, "a"))]),
        over(&[&format!("+ p {}", deep(10, "a")), "+ p x"]),
    ]
}

/// A tree of 40 words with four different terms.
fn full_tree() -> String {
    let thrice = |term: &str| format!("h {term} {term} {term}");
    thrice(&thrice(&thrice("a")))
}

/// Different fixed terms, none of them a constant.
fn term(number: usize) -> String {
    let leaf = ["a", "b", "f a", "f b", "g a b", "g b a", "f f a", "f f b"];
    match number {
        0..8 => format!("f {}", leaf[number]),
        8..72 => format!("g {} {}", leaf[(number - 8) / 8], leaf[(number - 8) % 8]),
        _ => format!("f g {} {}", leaf[(number - 72) / 8 % 8], leaf[(number - 72) % 8]),
    }
}

/// A clause in which so many different terms are arguments.
fn names_in_a_clause(count: usize) -> String {
    let literals = (0..count).map(|i| format!("+ p {}", term(i)));
    literals.collect::<Vec<_>>().join(" ")
}

/// A sheet with so many helpers, three in each clause, and these clauses after them.
fn helpers(count: usize, more: &[&str]) -> Vec<u8> {
    let terms: Vec<String> = (0..count).map(term).collect();
    let clauses: Vec<String> = terms
        .chunks(3)
        .map(|terms| terms.iter().map(|t| format!("+ p {t}")).collect::<Vec<_>>().join(" "))
        .collect();
    let clauses: Vec<&str> = clauses.iter().map(String::as_str).chain(more.iter().copied()).collect();
    sheet_of(&["a/0", "b/0", "f/1", "g/2"], &["p/1"], &clauses)
}

/// 32 helpers are taken and 33 are not; a sheet number of a later line comes first.
fn around_helpers() -> Vec<Vec<u8>> {
    let too_deep = format!("+ p {}", deep(10, "a"));
    vec![
        helpers(31, &[]),
        helpers(32, &[]),
        helpers(33, &[]),
        helpers(32, &["- p f a", "- p f b + p f f a"]),
        helpers(32, &["- p f g a A"]),
        helpers(32, &["- p f g b b"]),
        helpers(100, &[]),
        helpers(33, &[&too_deep]),
        helpers(33, &["+ p x"]),
        helpers(33, &["+ p"]),
        helpers(33, &["+ = A B"]),
    ]
}

fn writes() -> Vec<Call> {
    let mut calls = Vec::new();
    for sheet in naming() {
        calls.extend((1..=3).flat_map(|size| with_lengths(&sheet, size, WRITTEN)));
    }
    for sheet in around_limits().iter().chain(&around_helpers()) {
        calls.extend(with_lengths(sheet, 1, WRITTEN));
    }
    calls.extend(with_lengths(&helpers(32, &[]), 2, WRITTEN));
    // the instances count the helpers' own clauses and cells
    let deepest = over(&[&format!("+ p {}", deep(9, "a"))]);
    calls.extend([2, 3, 4].map(|size| writing(&deepest, size, 1_000)));
    // 21 before 8; 8 before 9
    calls.extend([0, 9, 258, u64::MAX].map(|size| writing(helpers(33, &[]), size, 10)));
    calls.extend([0, 9, 258, u64::MAX].map(|size| writing(&deepest, size, 10)));
    calls.extend(one_of_each().into_iter().map(|sheet| writing(sheet, 0, 10)));
    calls.push(writing(file("group.sheet"), 3, 65_000));
    calls
}

/// A setting in which each function cell has the value that is its place from the first, round and round, and predicates are
/// no and yes in turn.
fn some_setting(cells: usize, predicates: usize, helpers: usize, size: usize) -> Vec<u8> {
    let function = |cell: usize| (0..size).map(move |d| u8::from(d == cell % size));
    let declared = (0..cells).flat_map(function);
    let named = (cells..cells + helpers).flat_map(function);
    let predicates = (0..predicates).map(|i| (i % 2) as u8);
    declared.chain(predicates).chain(named).collect()
}

fn read_backs() -> Vec<Call> {
    // a, b and two cells of f; two cells of p and o; three helpers
    let sheet = small(&["+ p f a - p f f b", "+ = f b a"]);
    let setting = some_setting(4, 3, 3, 2);
    let (_, variables) = instances_and_variables(&sheet, 2, WRITTEN).expect("the sheet is taken");
    assert_eq!(setting.len() as u64, variables);
    let (_, output) = needed(&sheet, 2, SEARCHED).expect("the sheet is taken");
    assert!(read_back(&sheet, 2, Terms::Named, &setting, &mut vec![0; output as usize]).is_ok());
    let back = |setting: &[u8]| reading_back(&sheet, 2, setting, output);
    let mut calls: Vec<Call> = [output, output - 1, output + 9, 0]
        .map(|output| reading_back(&sheet, 2, &setting, output))
        .to_vec();
    // each byte changed: a cell with none or two results is 14, a predicate's is another case; a byte over 1 is 13
    for at in 0..setting.len() {
        let mut other = setting.clone();
        other[at] ^= 1;
        calls.push(back(&other));
        other[at] = 2;
        calls.push(back(&other));
    }
    // each helper with its other value, which need not be its term's; all of a cell no, all yes
    for helper in 0..3 {
        let first = setting.len() - 2 * (3 - helper);
        for values in [[0, 1], [1, 0], [0, 0], [1, 1]] {
            let mut other = setting.clone();
            other[first..first + 2].copy_from_slice(&values);
            calls.push(back(&other));
        }
    }
    // lengths around it: without one helper, without all of them, with one more
    let lengths = [0, 1, 10, 11, 12, 13, 14, 15, 16, 17, 18, 19];
    let longer = [setting.clone(), setting.clone()].concat();
    calls.extend(lengths.map(|length| back(&longer[..length])));
    calls.push(back(&longer));
    // 13 before 14 before 11
    calls.push(reading_back(&sheet, 2, &[2; 17], 0));
    calls.push(reading_back(&sheet, 2, &[1; 17], 0));
    for size in [0, 9, u64::MAX] {
        calls.push(reading_back(&sheet, size, &setting, output));
        calls.push(reading_back(helpers(33, &[]), size, &setting, output));
    }
    calls.extend(other_read_backs());
    calls.extend(one_of_each().into_iter().map(|sheet| reading_back(sheet, 9, b"", 10)));
    calls
}

/// Sheets without helpers and without predicates, with the most helpers, and those that are refused.
fn other_read_backs() -> Vec<Call> {
    let mut calls = vec![
        reading_back(two_constants(), 2, &[0, 1, 1, 0], 22),
        reading_back(two_constants(), 2, &[1, 1, 1, 0], 22),
        reading_back(sheet_of(&[], &[], &[""]), 8, &[], 14),
    ];
    let only_functions = sheet_of(&["f/1", "a/0"], &[], &["- = f f a a"]);
    calls.extend([1, 2, 3, 8].map(|size| {
        let setting = some_setting(size + 1, 0, 1, size);
        reading_back(&only_functions, size as u64, &setting, 60)
    }));
    let most = helpers(32, &[]);
    calls.extend([1, 2, 8].map(|size| {
        let setting = some_setting(2 + size + size * size, size, 32, size);
        reading_back(&most, size as u64, &setting, 300)
    }));
    let refused = around_limits().into_iter().chain(around_helpers());
    calls.extend(refused.map(|sheet| reading_back(sheet, 1, &[1; 10], 100)));
    calls
}

fn finds() -> Vec<Call> {
    let mut calls = Vec::new();
    for sheet in naming() {
        calls.push(searching_of(&sheet, 1, 3, SEARCHED));
        calls.push(searching_of(&sheet, 2, 2, SEARCHED));
    }
    for sheet in around_limits().iter().chain(&around_helpers()) {
        calls.push(taken_or(sheet, 1, 1, SEARCHED));
    }
    calls.push(taken_or(
        &helpers(32, &["- p f a", "- p f b", "- p f f a + = f a a"]),
        1,
        2,
        SEARCHED,
    ));
    calls.extend(limits_of_find());
    calls.extend(searches());
    calls.extend(one_of_each().into_iter().map(|sheet| finding(sheet, 0, 9, 3, 10)));
    calls
}

/// Sheets whose least model a mistake about helpers changes, and such that have none.
fn searches() -> Vec<Call> {
    let sheets = [
        (small(&["- = f f f a a", "- = f a a", "- = f f a a"]), 1, 4),
        (small(&["- = f f f a a", "- = f a a", "- = f f a a"]), 1, 3),
        (small(&["- = f f a a", "+ = f f f f a a", "- p f a", "+ p f f a"]), 1, 4),
        (
            small(&["+ = f f a b", "- = f b b", "- p f f a", "+ p a", "- = a b"]),
            1,
            3,
        ),
        (small(&["+ p f a", "- p f a"]), 1, 3),
        (small(&["- = f a f a"]), 2, 4),
        (
            sheet_of(
                &["f/1", "a/0"],
                &["p/1", "r/1"],
                &["+ p f a + r f f a", "- p f a", "- r f a", "- = a f a"],
            ),
            1,
            3,
        ),
        (
            sheet_of(&["a/0", "b/0"], &["p/1"], &["+ p a", "- p b", "+ = a b"]),
            1,
            2,
        ),
        (
            over(&[
                &format!("- = {} {}", deep(6, "a"), deep(6, "b")),
                "- = a b",
                "+ = f f A A",
            ]),
            1,
            2,
        ),
    ];
    sheets
        .iter()
        .map(|(sheet, low, high)| taken_or(sheet, *low, *high, SEARCHED))
        .collect()
}

/// Low and high, and what is lent one short, exact and more than needed; which refusal comes first.
fn limits_of_find() -> Vec<Call> {
    let sheet = small(&["+ p f a", "- p f f b"]);
    let (work, output) = needed(&sheet, 3, SEARCHED).expect("the sheet is taken");
    let plain = needed(&sheet, 3, TOLD_NO).expect("the sheet is taken").0;
    assert!(find(
        &sheet,
        1,
        3,
        SEARCHED,
        &mut vec![0; work as usize],
        &mut vec![0; output as usize]
    )
    .is_ok());
    let many = helpers(33, &[]);
    let instances = over(&[&format!("+ p {}", deep(9, "a"))]);
    vec![
        finding(&sheet, 1, 3, work - 1, output),
        finding(&sheet, 1, 3, work, output),
        finding(&sheet, 1, 3, work + 1, output + 7),
        // enough for terms as written
        finding(&sheet, 1, 3, plain, output),
        finding(&sheet, 1, 3, work, output - 1),
        finding(&sheet, 1, 3, 0, 0),
        finding(&sheet, 1, 3, work, 0),
        finding(&sheet, 0, 3, work, output),
        finding(&sheet, 1, 9, work, output),
        finding(&sheet, 3, 2, work, output),
        // 21, 8, 9, 10, 11
        finding(&many, 0, 9, 0, 0),
        finding(&many, 1, 8, 0, 0),
        finding(&instances, 0, 8, 0, 0),
        finding(&instances, 1, 8, 0, 0),
        finding(&instances, 1, 3, 0, 0),
        finding(&instances, 1, 4, 0, 0),
    ]
}
