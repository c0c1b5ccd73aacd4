//! Writes the stored inputs of the program `vectors` (`crates/vectors/data`) and what it must print for them
//! (`crates/vectors/stdout`). The answers are the reference's; those to stored vectors are first held against the
//! vectors' own.
//!
//! An input is a line of seven numbers, then the bytes of a sheet or of TPTP clauses and those of a case, a setting, a
//! solver's answer, a second sheet, or a case and a list behind it. The numbers are the lengths of the two, size or low or the
//! length of the case before a list, high, the allowance, and the lengths of the work and the output that are lent; those that
//! an operation does not take are 0.

mod allowance;
mod calls;
mod damaged;
mod examples;
mod merging;
mod named;
mod renumbering;
mod symmetry;

use calls::Call;
use nesskettle_reference::vectors::{self, patterned_bytes, patterned_numbers, Vector};
use nesskettle_reference::{explain, find, find_plain, from_solver, from_tptp, judge, read, read_back, setting, write};
use nesskettle_reference::{least_form, renumber};
use nesskettle_reference::{merge, MergeRefusal};
use nesskettle_reference::{FindOptions, Symmetry, Terms, WriteOptions};
use nesskettle_reference::{FirstFailure, Refusal, Search, SolverAnswer, OPERATIONS};
use std::path::Path;
use std::{fs, io};

/// What the program has room for: longer texts are told by their length and sum alone.
const SHORT: usize = 400;
const MOST_WORK: u64 = 65_536;
const MOST_OUTPUT: u64 = 65_536;
const MOST_DATA: usize = 300_000;
/// How many of the stored vectors each operation takes, and how long their sheets are.
const MOST_STORED: usize = 100;
const MOST_SHEET: usize = 700;

/// The files of inputs, in the order in which the program takes them.
const OPERATIONS_IN_ORDER: [&str; 20] = [
    "read",
    "judge",
    "write",
    "read_back",
    "find",
    "from_tptp",
    "explain",
    "setting",
    "from_solver",
    "find_plain",
    "write_named",
    "read_back_named",
    "find_named",
    "write_symmetry",
    "find_symmetry",
    "write_named_symmetry",
    "find_named_symmetry",
    "merge",
    "renumber",
    "least_form",
];

fn main() -> io::Result<()> {
    let folder = Path::new(env!("CARGO_MANIFEST_DIR")).join("../../crates/vectors");
    let mut printed = Vec::new();
    for operation in OPERATIONS_IN_ORDER {
        let mut inputs = match switches(operation) {
            (call, Terms::AsWritten, Symmetry::Kept) => [examples::of(call), damaged::of(call)].concat(),
            (call, Terms::Named, Symmetry::Kept) => named::of(call),
            (call, terms, Symmetry::Reduced) => symmetry::of(call, terms),
        };
        inputs.extend(stored(|v| is_of(v, operation)));
        if let ("find", terms, symmetry) = switches(operation) {
            inputs.extend(allowance::of(terms, symmetry));
            inputs.extend(stored(|v| is_allowed(v, terms, symmetry)));
        }
        let mut data = Vec::new();
        for (number, call) in (1..).zip(&inputs) {
            assert!(
                call.work <= MOST_WORK && call.output <= MOST_OUTPUT,
                "{operation} {number}"
            );
            call.put(&mut data);
            printed.extend(format!("{operation} {number}:").bytes());
            printed.extend(answer(operation, call));
        }
        assert!(data.len() < MOST_DATA, "{operation}");
        fs::write(folder.join("data").join(operation), data)?;
    }
    fs::write(folder.join("stdout"), printed)
}

/// The call of an operation, and its switches: those that are on stand at the name's end.
fn switches(operation: &str) -> (&str, Terms, Symmetry) {
    let (operation, symmetry) = match operation.strip_suffix("_symmetry") {
        Some(operation) => (operation, Symmetry::Reduced),
        None => (operation, Symmetry::Kept),
    };
    match operation.strip_suffix("_named") {
        Some(call) => (call, Terms::Named, symmetry),
        None => (operation, Terms::AsWritten, symmetry),
    }
}

/// Some of these stored vectors that the program has room for, evenly spread over them.
fn stored(is_taken: impl Fn(&Vector) -> bool) -> Vec<Call> {
    let vectors = vectors::stored().into_iter();
    let calls = vectors.filter(is_taken).filter_map(|v| {
        let number = |key: &str| if v.inputs.has(key) { v.inputs.number(key) } else { 0 };
        let bytes = |key: &str| {
            if v.inputs.has(key) {
                v.inputs.bytes(key).to_vec()
            } else {
                Vec::new()
            }
        };
        // TPTP clauses stand where a sheet does, a solver's answer beside one
        let (clauses, answer) = if v.inputs.has("sheet") {
            (Vec::new(), bytes("text"))
        } else {
            (bytes("text"), Vec::new())
        };
        // a list stands behind its case, whose length is told
        let before_list = if v.inputs.has("list") { bytes("case").len() } else { 0 };
        let call = Call {
            sheet: [bytes("sheet"), clauses, bytes("first")].concat(),
            beside: [bytes("case"), bytes("list"), bytes("setting"), answer, bytes("second")].concat(),
            low: number("low") + number("size") + before_list as u64,
            high: number("high"),
            allowance: v.allowance(),
            work: number("work"),
            output: number("output"),
        };
        let longest = call.sheet.len().max(bytes("second").len());
        let fits = longest <= MOST_SHEET && call.work <= MOST_WORK && call.output <= MOST_OUTPUT;
        fits.then(|| vectors::run(&OPERATIONS, &v).expect("the answer is as stored"))?;
        Some(call)
    });
    let calls: Vec<Call> = calls.collect();
    let step = calls.len().div_ceil(MOST_STORED);
    calls.into_iter().step_by(step).collect()
}

/// Is it a vector of Find with these switches that says how many choices are allowed?
fn is_allowed(vector: &Vector, terms: Terms, symmetry: Symmetry) -> bool {
    vector.inputs.has("allowance") && vector.terms() == terms && vector.symmetry() == symmetry
}

/// Is it a vector of this operation, without an allowance? Those that have a switch in which none is on, or not the last one,
/// are of none here.
fn is_of(vector: &Vector, operation: &str) -> bool {
    let (call, terms, symmetry) = switches(operation);
    let has = |switch: &str| vector.inputs.has(switch);
    let is_switched = match (terms, symmetry) {
        (Terms::AsWritten, Symmetry::Kept) => !has("named"),
        (Terms::Named, Symmetry::Kept) => vector.terms() == terms && !has("symmetry"),
        (_, Symmetry::Reduced) => vector.terms() == terms && vector.symmetry() == symmetry,
    };
    vector.operation.replace('-', "_") == call && is_switched && !has("allowance")
}

/// What is printed of a call after its number.
fn answer(operation: &str, call: &Call) -> Vec<u8> {
    let mut work = patterned_numbers(call.work);
    let mut output = patterned_bytes(call.output);
    let (sheet, beside) = (&call.sheet[..], &call.beside[..]);
    let (operation, terms, symmetry) = switches(operation);
    let told = match operation {
        "read" => {
            let told =
                |c: nesskettle_reference::Counts| format!(" counts {} {} {}", c.functions, c.predicates, c.clauses);
            return line(read(sheet).map_or_else(refusal, told));
        }
        "judge" => return line(judge(sheet, beside).map_or_else(refusal, |yes| format!(" {}", yes_no(yes)))),
        "explain" => return line(explain(sheet, beside).map_or_else(refusal, explained)),
        "merge" => return merged(call),
        "write" => write(sheet, call.low, WriteOptions { terms, symmetry }, &mut output).map(written),
        "read_back" => read_back(sheet, call.low, terms, beside, &mut output).map(written),
        "setting" => setting(sheet, beside, &mut output).map(written),
        "from_tptp" => from_tptp(sheet, &mut output).map(written),
        "from_solver" => from_solver(sheet, call.low, beside, &mut output).map(solved),
        "find" => {
            let options = FindOptions {
                terms,
                symmetry,
                allowance: call.allowance,
            };
            find(sheet, call.low, call.high, options, &mut work, &mut output).map(found_by_choices)
        }
        "find_plain" => find_plain(sheet, call.low, call.high, &mut output).map(found),
        "renumber" => {
            let (case, list) = beside.split_at(call.low as usize);
            renumber(sheet, case, list, &mut output).map(written)
        }
        "least_form" => least_form(sheet, beside, &mut output).map(written),
        other => panic!("no operation {other}"),
    };
    let length = told.as_ref().map_or(0, |(_, length)| length.unwrap_or(0));
    assert_eq!(
        output[length..],
        patterned_bytes(call.output)[length..],
        "the rest is unchanged"
    );
    let mut says = match told {
        Err(r) => refusal(r),
        Ok((first, None)) => first,
        Ok((first, Some(_))) => format!("{first} length {length} sum {}", sum(&output[..length])),
    };
    says += " rest same";
    if operation == "find" {
        let zero = work.iter().all(|&n| n == 0);
        assert!(
            zero != told_refused(&says) || work.is_empty(),
            "work is zero on results"
        );
        assert!(
            zero || work == patterned_numbers(call.work),
            "work is unchanged on refusals"
        );
        says += if told_refused(&says) {
            " work same"
        } else {
            " work zero"
        };
    }
    let mut text = line(says);
    // the bytes of a setting are no characters: their sum tells them
    if length <= SHORT && operation != "setting" {
        text.extend(&output[..length]);
    }
    text
}

/// What is printed of a merge after its number: a refusal's sheet first, where it is about one.
fn merged(call: &Call) -> Vec<u8> {
    let mut output = patterned_bytes(call.output);
    let merged = merge(&call.sheet, &call.beside, &mut output);
    let length = *merged.as_ref().unwrap_or(&0);
    assert_eq!(
        output[length..],
        patterned_bytes(call.output)[length..],
        "the rest is unchanged"
    );
    let told = |length: usize| format!(" length {length} sum {}", sum(&output[..length]));
    let mut text = line(merged.map_or_else(merge_refusal, told) + " rest same");
    if length <= SHORT {
        text.extend(&output[..length]);
    }
    text
}

fn told_refused(says: &str) -> bool {
    says.starts_with(" refused")
}

fn line(mut says: String) -> Vec<u8> {
    says.push('\n');
    says.into_bytes()
}

fn explained(failure: Option<FirstFailure>) -> String {
    let Some(failure) = failure else {
        return " yes".to_string();
    };
    let choice = failure.choice().iter();
    let choice: String = choice.map(|(letter, value)| format!(" {letter} {value}")).collect();
    format!(" no clause {}{choice}", failure.clause)
}

fn written(length: usize) -> (String, Option<usize>) {
    (String::new(), Some(length))
}

fn solved(answer: SolverAnswer) -> (String, Option<usize>) {
    match answer {
        SolverAnswer::Case { length } => written(length),
        SolverAnswer::ClaimedNone => (" claimed none".to_string(), None),
    }
}

fn found(search: Search) -> (String, Option<usize>) {
    match search {
        Search::Found { size, length, .. } => (format!(" found {size}"), Some(length)),
        Search::None { settled, .. } => (format!(" none settled {}", yes_no(settled)), None),
        Search::Stopped { size, .. } => (format!(" stopped {size}"), None),
    }
}

fn found_by_choices(search: Search) -> (String, Option<usize>) {
    let (told, length) = found(search);
    (format!("{told} choices {}", search.choices()), length)
}

fn refusal(r: Refusal) -> String {
    format!(
        " refused {} line {} column {} needed {}",
        r.reason.number(),
        r.line,
        r.column,
        r.needed
    )
}

fn merge_refusal(merge: MergeRefusal) -> String {
    let sheet = merge.sheet.map(|sheet| format!(" sheet {}", sheet.number()));
    sheet.unwrap_or_default() + &refusal(merge.refusal)
}

fn yes_no(yes: bool) -> &'static str {
    if yes {
        "yes"
    } else {
        "no"
    }
}

/// A sum that also tells the places of the bytes.
fn sum(text: &[u8]) -> u64 {
    text.iter().fold(0, |sum, &b| (sum * 31 + u64::from(b)) % 1_000_003)
}
