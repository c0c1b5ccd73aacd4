//! Inputs that some calls take longest for.

use crate::draft::Draft;
use nesskettle_reference::sheet_of;

/// The case in which every function's value is its argument at this place (1 where it has none there), and each
/// predicate holds everywhere or nowhere. Without constants every rearrangement leaves it as it is.
pub fn unchanging_case(draft: &Draft, size: usize, argument: usize, holds: bool) -> Vec<u8> {
    let mut text = format!("case=1\nsize={size}\n");
    for (place, symbol) in draft.symbols().enumerate() {
        let value = |cell: usize| match symbol.arity.checked_sub(argument + 1) {
            Some(after) => 1 + cell / size.pow(after as u32) % size,
            None => 1,
        };
        let is_function = place < draft.functions.len();
        let entry = |cell: usize| if is_function { value(cell) } else { holds as usize };
        let cells = 0..size.pow(symbol.arity as u32);
        let row: Vec<String> = cells.map(|cell| entry(cell).to_string()).collect();
        text += &format!("{}={}\n", symbol.name, row.join(" "));
    }
    text.into_bytes()
}

/// 64 clauses, about as long as they may be in a sheet, which are unlike in their ends; the last one ends in this
/// letter.
pub fn large_sheet(last: char) -> Vec<u8> {
    let long = "+ abcdefghijkl mnopqrstuvwx mnopqrstuvwx mnopqrstuvwx ".repeat(4);
    let letter = |i: usize| char::from(b'A' + i as u8);
    let mut clauses: Vec<String> = (0..63)
        .map(|i| format!("{long}- abcdefghijkl A {} {}", letter(i / 8), letter(i % 8)))
        .collect();
    clauses.push(format!("{long}- abcdefghijkl B A {last}"));
    let clauses: Vec<&str> = clauses.iter().map(String::as_str).collect();
    sheet_of(&["mnopqrstuvwx/0"], &["abcdefghijkl/3"], &clauses)
}
