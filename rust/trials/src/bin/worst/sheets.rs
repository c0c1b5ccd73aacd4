//! Calls on sheets: Read, Merge and Write, with as many words, clause lines and instances as there can be.

use crate::instances::{at_instance_limit, Instances};
use crate::shapes::{clause, sheet_with, strs};
use crate::slowest::Slowest;
use nesskettle::Terms::AsWritten;
use nesskettle_trials::dearest::large_sheet;
use nesskettle_trials::draft::Draft;
use nesskettle_trials::options::not_asked;

/// All names are alike but for their last letter, and the last ones are used; the last word is good, or no word at all.
pub fn read() {
    let mut slowest = Slowest::new();
    for length in 1..=12 {
        let names = |letters: std::ops::RangeInclusive<char>| letters.map(|l| format!("{l:a>length$}")).collect();
        let functions: Vec<String> = names('a'..='l');
        let predicates: Vec<String> = names('m'..='x');
        let (f, p) = (&functions[11], &predicates[11]);
        for literal in [
            format!("+ {p} A B C"),
            format!("+ {p} {f} A {f} A {f} A"),
            format!("+ = {f} A {f} A"),
        ] {
            let clause = clause(&[], &literal, &literal);
            let functions: Vec<String> = functions.iter().map(|name| format!("{name}/1")).collect();
            let predicates: Vec<String> = predicates.iter().map(|name| format!("{name}/3")).collect();
            let Some(sheet) = sheet_with(&strs(&functions), &strs(&predicates), &clause, 64) else {
                continue;
            };
            let mut faulty = sheet.clone();
            faulty[sheet.len() - 2] = b'?';
            for (name, sheet) in [("taken", sheet), ("refused at its last word", faulty)] {
                let name = format!("{} bytes of `{literal}`, {name}", sheet.len());
                slowest.attempt(name, sheet, |sheet| {
                    let _ = nesskettle::read(sheet);
                });
            }
        }
    }
    slowest.print("Read");
}

/// Clause lines that are alike but for their last bytes, so that no comparison of two ends early.
pub fn merge() {
    let first = large_sheet('A');
    let mut reversed = Draft::of_sheet(&first);
    reversed.clauses.reverse();
    let mut last = Draft::of_sheet(&first);
    last.clauses = vec![last.clauses[63].clone(); 64];
    let mut slowest = Slowest::new();
    for (name, second) in [
        ("the same sheet twice", first.clone()),
        ("64 clauses and one more", large_sheet('B')),
        ("64 clauses, and these reversed", reversed.sheet()),
        ("64 clauses, and the last of these 64 times", last.sheet()),
    ] {
        for (order, one, other) in [("", &first, &second), (", the other first", &second, &first)] {
            let mut output = vec![0; 16_384];
            slowest.attempt(format!("{name}{order}"), (), |_| {
                let _ = nesskettle::merge(one, other, &mut output);
            });
        }
    }
    slowest.print("Merge");
}

pub fn write() {
    let mut slowest = Slowest::new();
    let options = not_asked(AsWritten);
    for Instances { name, sheet, size } in at_instance_limit() {
        let needed = nesskettle::write(&sheet, size, options, &mut [])
            .expect_err("no room")
            .needed;
        let mut output = vec![0; needed as usize];
        slowest.attempt(format!("{needed} bytes, {name}"), sheet, |sheet| {
            nesskettle::write(sheet, size, options, &mut output).expect("there is room");
        });
    }
    slowest.print("Write");
}
