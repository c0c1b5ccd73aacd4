//! Renumbered cases: the elements of a case numbered otherwise, and the least of all that come about so.

use crate::grounding::power;
use crate::interpretation::Interpretation;
use crate::problem::Problem;
use crate::MAX_SIZE;

/// Does the list have each number from 1 to the size once, and nothing else?
pub fn is_rearrangement(list: &[u8], size: usize) -> bool {
    list.len() == size && (1..=size as u8).all(|number| list.contains(&number))
}

/// The case in which each element d is the d-th number of the rearrangement instead.
pub fn renumbered(problem: &Problem, case: &Interpretation, list: &[u8]) -> Interpretation {
    Interpretation::new(case.size, new_cells(problem, case, list).collect())
}

/// The least of all cases that a rearrangement makes of this one.
pub fn least_form(problem: &Problem, case: &Interpretation) -> Interpretation {
    let mut least = case.cells.clone();
    for_each_rearrangement(&mut Vec::new(), case.size, &mut |list| {
        if new_cells(problem, case, list).lt(least.iter().copied()) {
            least = new_cells(problem, case, list).collect();
        }
    });
    Interpretation::new(case.size, least)
}

/// Hands out each rearrangement of 1 to the size that begins like this.
fn for_each_rearrangement(begun: &mut Vec<u8>, size: usize, take: &mut impl FnMut(&[u8])) {
    if begun.len() == size {
        return take(begun);
    }
    for number in 1..=size as u8 {
        if !begun.contains(&number) {
            begun.push(number);
            for_each_rearrangement(begun, size, take);
            begun.pop();
        }
    }
}

/// The values of the renumbered case, in cell order. A new cell has the value of the cell whose arguments become its own.
fn new_cells<'a>(problem: &'a Problem, case: &'a Interpretation, list: &'a [u8]) -> impl Iterator<Item = u8> + 'a {
    let size = case.size;
    let before = places_before(list);
    let functions = problem.functions.iter().map(|f| (f.arity, true));
    let predicates = problem.predicates.iter().map(|p| (p.arity, false));
    let mut rest = case.cells.as_slice();
    functions.chain(predicates).flat_map(move |(arity, is_function)| {
        let (table, after) = rest.split_at(power(size, arity));
        rest = after;
        (0..table.len()).map(move |cell| {
            let value = table[cell_before(cell, arity, size, &before)];
            if is_function {
                list[value as usize - 1]
            } else {
                value
            }
        })
    })
}

/// Where each number stands in the rearrangement, both counted from 0: which element becomes it.
fn places_before(list: &[u8]) -> [usize; MAX_SIZE as usize] {
    let mut before = [0; MAX_SIZE as usize];
    for (place, &number) in list.iter().enumerate() {
        before[number as usize - 1] = place;
    }
    before
}

/// The cell of a table whose arguments become those of this cell.
fn cell_before(cell: usize, arity: usize, size: usize, before: &[usize]) -> usize {
    let weights = (0..arity).map(|place| power(size, place));
    weights.map(|weight| before[cell / weight % size] * weight).sum()
}
