//! Rearrangements of elements and lists that are none, renumberings of cases, and which cases obey the constant clauses.

use crate::draft::{Draft, Symbol};
use crate::random::Random;

/// All rearrangements of the numbers from 1 to the size.
pub fn rearrangements(size: usize) -> Vec<Vec<u8>> {
    (1..=size).fold(vec![Vec::new()], |shorter, number| {
        let longer = |list: &Vec<u8>| {
            let with = |at: usize| [&list[..at], &[number as u8], &list[at..]].concat();
            (0..number).map(with).collect::<Vec<_>>()
        };
        shorter.iter().flat_map(longer).collect()
    })
}

/// A rearrangement of the numbers from 1 to the size.
pub fn rearrangement(random: &mut Random, size: usize) -> Vec<u8> {
    let mut left: Vec<u8> = (1..=size as u8).collect();
    (0..size).map(|_| left.remove(random.below(left.len()))).collect()
}

/// A rearrangement mostly; else a list that is none, or that is one of another size.
pub fn list(random: &mut Random, size: usize) -> Vec<u8> {
    let mut list = rearrangement(random, size);
    match random.below(16) {
        0 => list[random.below(size)] = random.between(0, size + 1) as u8,
        1 => list[random.below(size)] = random.number() as u8,
        2 => drop(list.remove(random.below(size))),
        3 => list.insert(random.between(0, size), random.between(0, size + 1) as u8),
        4 => {
            let other = random.between(0, 9);
            list = rearrangement(random, other);
        }
        5 => list.iter_mut().for_each(|number| *number += b'0'),
        _ => {}
    }
    list
}

/// The list that does what the first and then the second does.
pub fn composed(first: &[u8], second: &[u8]) -> Vec<u8> {
    first.iter().map(|&number| second[number as usize - 1]).collect()
}

/// The list that undoes this one.
pub fn reverse(list: &[u8]) -> Vec<u8> {
    let place = |number: u8| list.iter().position(|&entry| entry == number);
    let places = (1..=list.len() as u8).filter_map(place);
    places.map(|place| place as u8 + 1).collect()
}

/// A case that many rearrangements leave as it is: most of its tables have one value throughout, or tell whether arguments are
/// equal, or have an argument as their value.
pub fn even_case(random: &mut Random, draft: &Draft, size: usize) -> Vec<u8> {
    let mut text = format!("case=1\nsize={size}\n");
    for (place, symbol) in draft.symbols().enumerate() {
        let values = if place < draft.functions.len() {
            (1, size)
        } else {
            (0, 1)
        };
        let row = even_table(random, symbol, size, values);
        let row: Vec<String> = row.iter().map(usize::to_string).collect();
        text += &format!("{}={}\n", symbol.name, row.join(" "));
    }
    text.into_bytes()
}

fn even_table(random: &mut Random, symbol: &Symbol, size: usize, (least, most): (usize, usize)) -> Vec<usize> {
    let count = size.pow(symbol.arity as u32);
    let cells = 0..count;
    let (first, last) = (|cell: usize| cell * size / count, |cell: usize| cell % size);
    let (kind, one) = (random.below(6), random.between(least, most));
    match (kind, least) {
        (0, _) => cells.map(|_| random.between(least, most)).collect(),
        (1 | 2, 0) if symbol.arity > 1 => cells.map(|cell| usize::from(first(cell) == last(cell))).collect(),
        (1, 1) if symbol.arity > 0 => cells.map(|cell| last(cell) + 1).collect(),
        (2, 1) if symbol.arity > 0 => cells.map(|cell| first(cell) + 1).collect(),
        _ => vec![one; count],
    }
}

/// The case in which each element d is the d-th of these numbers instead.
pub fn renumbered(draft: &Draft, case: &[u8], numbers: &[u8]) -> Vec<u8> {
    let numbers: Vec<usize> = numbers.iter().map(|&number| usize::from(number)).collect();
    let mut text = format!("case=1\nsize={}\n", numbers.len());
    for (place, (symbol, values)) in draft.symbols().zip(tables(case)).enumerate() {
        let is_function = place < draft.functions.len();
        let mut row = vec![String::new(); values.len()];
        for (cell, value) in values.into_iter().enumerate() {
            let value = if is_function { numbers[value - 1] } else { value };
            row[moved(cell, symbol.arity, &numbers)] = value.to_string();
        }
        text += &format!("{}={}\n", symbol.name, row.join(" "));
    }
    text.into_bytes()
}

/// Do the constants, as they are declared, take no value before the one below it was taken?
pub fn obeys(draft: &Draft, case: &[u8]) -> bool {
    let functions = draft.functions.iter().zip(tables(case));
    let mut constants = functions.filter(|(function, _)| function.arity == 0);
    let mut highest = 0;
    constants.all(|(_, values)| {
        let is_next_or_taken = values[0] <= highest + 1;
        highest = highest.max(values[0]);
        is_next_or_taken
    })
}

/// The values of each symbol.
fn tables(case: &[u8]) -> Vec<Vec<usize>> {
    let text = std::str::from_utf8(case).expect("a case is text");
    let values = |line: &str| {
        let (_, values) = line.split_once('=').expect("a line has a key");
        values.split(' ').map(|n| n.parse().expect("a number")).collect()
    };
    text.lines().skip(2).map(values).collect()
}

/// Where the entry of a cell, the number whose digits its arguments are, stands once these are renumbered.
fn moved(cell: usize, arity: usize, numbers: &[usize]) -> usize {
    let size = numbers.len();
    let weights = (0..arity as u32).map(|place| size.pow(place));
    weights.map(|weight| (numbers[cell / weight % size] - 1) * weight).sum()
}
