//! The input that each call takes longest for, searched among shapes at the limits: a line for each call with the
//! slowest of them, its processor time, and how many were tried.
//!
//!     cargo run --release -p nesskettle-trials --bin worst [PART..]
//!
//! All parts are taken where the command line names none; then it takes some ten minutes, most of it Judge and Explain.

mod cases;
mod instances;
mod judging;
mod shapes;
mod sheets;
mod slowest;
mod solving;
mod texts;

/// The calls, in parts.
const PARTS: [(&str, fn()); 12] = [
    ("read", sheets::read),
    ("merge", sheets::merge),
    ("write", sheets::write),
    ("read-back", cases::read_back),
    ("setting", cases::setting),
    ("renumber", cases::renumber),
    ("least-form", cases::least_form),
    ("tptp", texts::from_tptp),
    ("solver", texts::from_solver),
    ("find", solving::find),
    ("find-plain", judging::find_plain),
    ("judge", judging::judge_and_explain),
];

fn main() {
    let wanted: Vec<String> = std::env::args().skip(1).collect();
    for (name, part) in PARTS {
        if wanted.is_empty() || wanted.iter().any(|w| w == name) {
            part();
        }
    }
}
