//! Judge, Explain and Find plain: clauses that are true under every choice of values, so that all choices are tried,
//! each through to the last literal.

use crate::shapes::{clause, sheet_with};
use crate::slowest::{fastest, line, Slowest};
use nesskettle_reference::sheet_of;
use nesskettle_trials::dearest::unchanging_case;
use nesskettle_trials::draft::Draft;
use nesskettle_trials::timing::shown;

const FUNCTIONS: [&str; 4] = ["c/0", "g/1", "k/1", "f/3"];
const PREDICATES: [&str; 4] = ["z/0", "r/1", "q/2", "p/3"];
/// These have all eight letters.
const LETTERS: [&str; 3] = ["+ p A B C", "+ p D E F", "+ q G H"];
/// Literals that are false where no predicate holds.
const FALSE: [&str; 15] = [
    "+ z",
    "+ r A",
    "+ q A B",
    "+ p A B C",
    "- = A A",
    "+ r c",
    "- = c c",
    "+ p c c c",
    "+ r g A",
    "+ r k g A",
    "+ q g A g A",
    "+ p g A g A g A",
    "+ p f A B C f A B C f A B C",
    "- = g A g A",
    "- = k g A k g A",
];
const TRUE: &str = "+ = A A";

/// The slowest clause at a size at which all can be tried, then a whole sheet of it at size 8.
pub fn judge_and_explain() {
    let mut slowest = Slowest::new();
    for front in FALSE {
        for count in [0, 3, 6, 9] {
            for middle in FALSE {
                let mut parts = LETTERS.to_vec();
                parts.extend(vec![front; count]);
                let clause = clause(&parts, middle, TRUE);
                if let Some(sheet) = sheet_with(&FUNCTIONS, &PREDICATES, &clause, 1) {
                    let case = unchanging_case(&Draft::of_sheet(&sheet), 4, 0, false);
                    slowest.attempt(clause, sheet, |sheet| {
                        assert_eq!(nesskettle::judge(sheet, &case), Ok(true))
                    });
                }
            }
        }
    }
    slowest.print("Judge at 4");
    for clauses in [1, 64] {
        let sheet = sheet_with(&FUNCTIONS, &PREDICATES, slowest.name(), clauses).expect("it was read");
        let case = unchanging_case(&Draft::of_sheet(&sheet), 8, 0, false);
        let name = format!("{clauses} of these clauses at size 8");
        let time = fastest(|| assert_eq!(nesskettle::judge(&sheet, &case), Ok(true)));
        line("Judge", &name, &shown(time), 1);
        let time = fastest(|| assert_eq!(nesskettle::explain(&sheet, &case), Ok(None)));
        line("Explain", &name, &shown(time), 1);
    }
}

/// A case of Find plain is judged as by Judge: here all cases of one constant at size 8, each by a clause that is true
/// under every choice and one that fails.
pub fn find_plain() {
    let letters = ["A", "B", "C", "D", "E", "F", "G", "H"].map(|letter| format!("- = {letter} {letter}"));
    let letters: Vec<&str> = letters.iter().map(String::as_str).collect();
    let mut slowest = Slowest::new();
    for middle in ["- = A A", "- = c c"] {
        let long = clause(&letters, middle, TRUE);
        let sheet = sheet_of(&["c/0"], &[], &[&long, "- = A A"]);
        if nesskettle::read(&sheet).is_ok() {
            slowest.attempt(format!("8 cases, `{long}`"), sheet, |sheet| {
                nesskettle::find_plain(sheet, 8, 8, &mut [0; 100]).expect("it is searched");
            });
        }
    }
    slowest.print("Find plain");
}
