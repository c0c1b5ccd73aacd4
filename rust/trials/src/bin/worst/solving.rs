//! Find: the time until its first choice, and the time of a choice.

use crate::instances::{at_instance_limit, Instances};
use crate::slowest::{fastest, Slowest};
use nesskettle::Terms::AsWritten;
use nesskettle::{FindOptions, Search};
use nesskettle_reference::{needed, sheet_of};
use nesskettle_trials::options::told_no;
use nesskettle_trials::problems;

/// How many choices are timed.
const CHOICES: u64 = 30;

pub fn find() {
    first_choice();
    one_choice();
}

/// Making the clauses, and what these force.
fn first_choice() {
    let mut first = Slowest::new();
    for Instances { name, sheet, size } in at_instance_limit() {
        let (seconds, _) = searched(&sheet, size, 0);
        first.told(name, (), seconds);
    }
    first.print("Find, first");
}

fn one_choice() {
    let mut choice = Slowest::new();
    let mut tell = |name: String, sheet: &[u8], size: u64| {
        let (start, _) = searched(sheet, size, 0);
        let (seconds, choices) = searched(sheet, size, CHOICES);
        if choices > 0 {
            choice.told(name, (), (seconds - start) / choices as f64);
        }
    };
    for problem in problems::ALL {
        for size in 4..=8 {
            if needed(problem.sheet, size, told_no(AsWritten)).is_ok() {
                tell(format!("{} at size {size}", problem.name), problem.sheet, size);
            }
        }
    }
    for more in 0..=OTHERS.len() {
        for size in 6..=8 {
            let name = format!("every clause for each choice, {more} literals more, at size {size}");
            tell(name, &chains(more), size);
        }
    }
    choice.print("Find, choice");
}

/// The seconds of a search with so many choices allowed, and how many it makes; none where it is refused.
fn searched(sheet: &[u8], size: u64, allowance: u64) -> (f64, u64) {
    let options = FindOptions {
        allowance,
        ..told_no(AsWritten)
    };
    let (work, output) = needed(sheet, size, options).expect("it is a sheet");
    let (mut work, mut output) = (vec![0; work as usize], vec![0; output as usize]);
    let mut made = 0;
    let seconds = fastest(|| {
        made = match nesskettle::find(sheet, size, size, options, &mut work, &mut output) {
            Ok(Search::Found { choices, .. } | Search::None { choices, .. } | Search::Stopped { choices, .. }) => {
                choices
            }
            Err(_) => 0,
        }
    });
    (seconds, made)
}

/// Arguments of further literals.
const OTHERS: [&str; 10] = [
    "E D F", "F E D", "D F E", "E F D", "F D E", "D D E", "D E D", "E D D", "E E D", "E D E",
];

/// No model: `q` holds everywhere or nowhere, both make `r` hold, and `r` goes with no `s`. Nine truth values before
/// them are free, so that `q` is chosen again for each of their choices, and each time every clause is looked at before
/// it fails. The longest clauses have so many literals more of `q`.
fn chains(more: usize) -> Vec<u8> {
    let free: Vec<String> = (0..9).map(|i| format!("z{i}/0")).collect();
    let mut predicates: Vec<&str> = free.iter().map(String::as_str).collect();
    predicates.extend(["q/3", "r/1", "s/1"]);
    let chain = "- q A B C + q D E F";
    let others: String = OTHERS[..more].iter().map(|letters| format!(" + q {letters}")).collect();
    let long = format!("{chain}{others}");
    let clauses = [
        chain,
        &long,
        &long,
        "+ q A B C + r D",
        "- q A B C + r D",
        "- r A + s B",
        "- r A - s B",
    ];
    sheet_of(&[], &predicates, &clauses)
}
