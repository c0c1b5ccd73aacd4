//! Inputs of Find with an allowance: around the choices that each size needs, searches that make none and that go back often,
//! and the limit of the allowance from both sides.

use crate::calls::{file, finding, largest, searching_of, Call};
use crate::examples::two_constants;
use nesskettle_reference::{find, sheet_of, FindOptions, Symmetry, Terms};

pub fn of(terms: Terms, symmetry: Symmetry) -> Vec<Call> {
    let options = largest(terms, symmetry);
    let mut calls = Vec::new();
    for (sheet, low, high) in searches() {
        let call = searching_of(sheet, low, high, options);
        calls.extend(around_choices(&call, options));
    }
    calls.extend(limits(options));
    calls
}

/// Sheets whose number of choices a mistake about what a choice is changes, with the sizes that are searched.
fn searches() -> Vec<(Vec<u8>, u64, u64)> {
    vec![
        // no variable; the empty clause
        (sheet_of(&[], &[], &[]), 1, 3),
        (sheet_of(&[], &[], &["+ = A B"]), 2, 4),
        (sheet_of(&["a/0", "f/1"], &["p/1"], &[""]), 1, 3),
        // all clauses are true and variables are unset: predicates, functions
        (sheet_of(&[], &["p/1", "o/0"], &[]), 1, 3),
        (sheet_of(&["f/1"], &["p/1"], &["+ p A - p A"]), 3, 3),
        (sheet_of(&["f/1", "g/2"], &[], &[]), 2, 2),
        // all is forced
        (sheet_of(&["a/0"], &["p/1"], &["+ = a A", "+ p a"]), 1, 1),
        (sheet_of(&[], &["p/1", "q/1"], &["+ p A", "- p A + q A"]), 3, 3),
        // a repeated literal forces as one does
        (sheet_of(&[], &["p/1", "q/1"], &["+ p A + p B", "- p A + q A"]), 2, 2),
        // no first for predicates, yes first for functions; the other value fails too
        (
            sheet_of(&[], &["p/0", "q/0", "r/0"], &["+ p + q", "+ p - q", "- p + r"]),
            1,
            1,
        ),
        (
            sheet_of(&[], &["p/0", "q/0"], &["+ p + q", "+ p - q", "- p + q", "- p - q"]),
            1,
            2,
        ),
        (
            sheet_of(&["f/1"], &[], &["- = f A A", "- = f f A A", "- = f f f A A"]),
            1,
            4,
        ),
        // several sizes without a model come first
        (two_constants(), 1, 3),
        (two_constants(), 2, 2),
        (
            sheet_of(
                &["a/0", "b/0", "c/0"],
                &["r/2"],
                &["- = a b", "- = b c", "- = a c", "- r A A", "+ r a b"],
            ),
            1,
            4,
        ),
        (
            sheet_of(
                &["f/1", "a/0"],
                &["p/1"],
                &["- p a", "- p A + p f A", "+ p f a", "- = f A A"],
            ),
            1,
            4,
        ),
        // helpers: yes first, though they come after the predicates
        (
            sheet_of(
                &["f/1", "a/0", "b/0"],
                &["p/1"],
                &["+ p f a", "- p f f b", "- = f a f b"],
            ),
            1,
            3,
        ),
        (file("exponent-2.sheet"), 1, 3),
        (file("pigeonhole.sheet"), 1, 5),
        (file("serial-order.sheet"), 1, 3),
        (file("tournament.sheet"), 1, 4),
    ]
}

/// Just as many choices as each size needs, one less and one more; none at all, and the most.
fn around_choices(call: &Call, options: FindOptions) -> Vec<Call> {
    let mut allowances = vec![0, FindOptions::LARGEST_ALLOWANCE];
    for high in call.low..=call.high {
        let mut work = vec![0; call.work as usize];
        let mut output = vec![0; call.output as usize];
        let search = find(&call.sheet, call.low, high, options, &mut work, &mut output);
        let choices = search.expect("the room is enough").choices();
        allowances.extend([choices.saturating_sub(1), choices, choices + 1]);
    }
    allowances.sort();
    allowances.dedup();
    allowances.into_iter().map(|n| allowed(call.clone(), n)).collect()
}

fn allowed(call: Call, allowance: u64) -> Call {
    Call { allowance, ..call }
}

/// 1,000,000 is taken, and no number above, those that a narrower number would take among them; which refusal comes first.
fn limits(options: FindOptions) -> Vec<Call> {
    let over = FindOptions::LARGEST_ALLOWANCE + 1;
    let two = searching_of(two_constants(), 1, 3, options);
    let mut calls: Vec<Call> = [over - 1, over, 9_999_999, 1 << 32, (1 << 32) + 1, u64::MAX]
        .map(|allowance| allowed(two.clone(), allowance))
        .to_vec();
    let (work, output) = (two.work, two.output);
    let many = sheet_of(&[], &["q/3"], &["+ q A B C + q D E F"; 4]);
    let broken = sheet_of(&[], &["q/3"], &["+ q A"]);
    let refused = [
        finding(&two.sheet, 0, 3, work, output),
        finding(&two.sheet, 1, 9, work, output),
        finding(&two.sheet, 3, 2, work, output),
        finding(&two.sheet, 1, 3, work - 1, output),
        finding(&two.sheet, 1, 3, work, output - 1),
        finding(many, 1, 8, 0, 0),
        finding(broken, 0, 9, 0, 0),
    ];
    calls.extend(refused.map(|call| allowed(call, over)));
    calls
}
