//! Calls on cases and settings: Read back, Setting, Renumber and Least form, with as many cells as there can be.

use crate::slowest::Slowest;
use nesskettle::Terms::{AsWritten, Named};
use nesskettle_trials::dearest::unchanging_case;
use nesskettle_trials::draft::Draft;
use nesskettle_trials::random::Random;

const SIZE: usize = 8;
/// Longer than any case.
const ROOM: usize = 30_000;

/// The sheets with the most cells: without clauses, and with as many words of clauses as there may be.
fn sheets() -> Vec<(&'static str, Draft)> {
    let bare = Draft::most_cells();
    let mut full = bare.clone();
    let words = "+ p11 A B C ".repeat(12) + "+ = A A";
    full.clauses = vec![words.split(' ').map(str::to_string).collect(); 64];
    vec![("no clause", bare), ("64 clauses", full)]
}

/// Cases with the most cells, with names of what they are like.
fn cases(draft: &Draft) -> Vec<(String, Vec<u8>)> {
    let mut cases = vec![("any entries".to_string(), draft.case(&mut Random::new(21), SIZE))];
    for argument in 0..3 {
        for holds in [false, true] {
            let name = format!("functions are argument {}, predicates {}", argument + 1, holds as u8);
            cases.push((name, unchanging_case(draft, SIZE, argument, holds)));
        }
    }
    cases
}

/// Tries each case of each sheet.
fn of_cases(call: &str, mut work: impl FnMut(&[u8], &[u8])) {
    let mut slowest = Slowest::new();
    for (clauses, draft) in sheets() {
        let sheet = draft.sheet();
        for (name, case) in cases(&draft) {
            slowest.attempt(format!("{clauses}, {name}"), case, |case| work(&sheet, case));
        }
    }
    slowest.print(call);
}

pub fn setting() {
    let mut output = vec![0; 55_296];
    of_cases("Setting", |sheet, case| {
        nesskettle::setting(sheet, case, &mut output).expect("it is a case");
    });
}

pub fn renumber() {
    let list = [2, 3, 4, 5, 6, 7, 8, 1];
    let mut output = vec![0; ROOM];
    of_cases("Renumber", |sheet, case| {
        nesskettle::renumber(sheet, case, &list, &mut output).expect("it is a case");
    });
}

pub fn least_form() {
    let mut output = vec![0; ROOM];
    of_cases("Least form", |sheet, case| {
        nesskettle::least_form(sheet, case, &mut output).expect("it is a case");
    });
}

/// The settings of these cases.
pub fn read_back() {
    let mut slowest = Slowest::new();
    let mut output = vec![0; ROOM];
    for (clauses, draft) in sheets() {
        let sheet = draft.sheet();
        for (name, case) in cases(&draft) {
            let mut setting = vec![0; draft.variables(SIZE)];
            nesskettle::setting(&sheet, &case, &mut setting).expect("it is a case");
            for terms in [AsWritten, Named] {
                slowest.attempt(format!("{clauses}, {name}, {terms:?}"), setting.clone(), |setting| {
                    nesskettle::read_back(&sheet, SIZE as u64, terms, setting, &mut output).expect("it is a setting");
                });
            }
        }
    }
    slowest.print("Read back");
}
