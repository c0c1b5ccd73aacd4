//! Outcomes of a search as TPTP's tools print them: an SZS status, and a model as a TPTP finite interpretation.

use crate::report::Failure;
use crate::symbols::{symbols, Symbol};
use nesskettle::Reason;

/// There is a model: the status, and the model between its output lines.
pub fn found(path: &str, sheet: &[u8], case: &[u8]) -> String {
    let model = interpretation(sheet, case);
    let name = name(path);
    status("Satisfiable", path)
        + &format!("% SZS output start FiniteModel for {name}\n{model}% SZS output end FiniteModel for {name}\n")
}

/// There is none of the searched sizes; where that is settled, there is none at all.
pub fn none(path: &str, low: u64, high: u64, settled: bool) -> String {
    if settled {
        status("Unsatisfiable", path)
    } else {
        status("GaveUp", path) + &format!("% no model found at the sizes {low} to {high}\n")
    }
}

/// The search ran out of choices at a size.
pub fn stopped(path: &str, size: u64) -> String {
    status("ResourceOut", path) + &format!("% more choices are needed at size {size} than are allowed\n")
}

/// Nothing was searched. A limit in the way says nothing against the file.
pub fn failed(path: &str, failure: &Failure) -> String {
    match failure.reason {
        Some(Reason::BadSize | Reason::AllowanceTooLarge) => status("UsageError", path),
        Some(Reason::TooManyInstances | Reason::BeyondSheets | Reason::TooManyCells | Reason::TooManyHelpers) => {
            status("GaveUp", path)
        }
        _ => status("InputError", path),
    }
}

fn status(status: &str, path: &str) -> String {
    format!("% SZS status {status} for {}\n", name(path))
}

/// The file's name as it was given, on one line.
fn name(path: &str) -> String {
    path.replace(char::is_control, "?")
}

/// The case as formulas: its elements, the values of its functions, and what holds. Elements are distinct objects, which
/// TPTP takes to be different.
fn interpretation(sheet: &[u8], case: &[u8]) -> String {
    let (sheet, case) = (String::from_utf8_lossy(sheet), String::from_utf8_lossy(case));
    let (size, symbols) = symbols(&sheet, &case);
    let domain: Vec<String> = (1..=size).map(|d| format!("X = {}", element(d))).collect();
    let mut text = formula("domain,fi_domain,\n    ! [X] :", "|", &domain);
    let entries = |of_predicates: bool| -> Vec<String> {
        let chosen = symbols.iter().filter(|s| s.is_predicate == of_predicates);
        chosen.flat_map(|symbol| entries(symbol, size)).collect()
    };
    text += &formula("functors,fi_functors,", "&", &entries(false));
    text += &formula("predicates,fi_predicates,", "&", &entries(true));
    text
}

/// Each entry of a symbol's table as a literal, the last argument fastest.
fn entries(symbol: &Symbol, size: usize) -> Vec<String> {
    let argument = |cell: usize, place: usize| element(1 + cell / size.pow(place as u32) % size);
    let literal = |(cell, value): (usize, &str)| {
        let arguments: Vec<String> = (0..symbol.arity).rev().map(|place| argument(cell, place)).collect();
        let applied = match symbol.arity {
            0 => symbol.name.to_string(),
            _ => format!("{}({})", symbol.name, arguments.join(",")),
        };
        match (symbol.is_predicate, value) {
            (false, _) => format!("{applied} = {}", element(value)),
            (true, "1") => applied,
            (true, _) => format!("~ {applied}"),
        }
    };
    symbol.entries.split(' ').enumerate().map(literal).collect()
}

fn element(number: impl std::fmt::Display) -> String {
    format!("\"{number}\"")
}

/// A statement of parts with a connective between them; nothing where there is no part.
fn formula(start: &str, connective: &str, parts: &[String]) -> String {
    if parts.is_empty() {
        return String::new();
    }
    let parts = parts.join(&format!("\n    {connective} "));
    format!("fof({start}\n    ( {parts} )).\n")
}
