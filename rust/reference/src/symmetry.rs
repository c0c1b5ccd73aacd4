//! The constant clauses, which reduce the symmetry between a model and its renumberings: each declared constant takes a value
//! up to its place among them, and a value above 1 only if an earlier constant has the one below.

use crate::grounding::Numbering;
use crate::problem::Problem;

/// Hands them out constant by constant: first which values it may take, then for each of these from 2 on what it needs.
pub fn for_each_clause(problem: &Problem, numbering: &Numbering, take: &mut impl FnMut(&[i32])) {
    let functions = problem.functions.iter().zip(&numbering.function_base);
    let constants = functions.filter(|(function, _)| function.arity == 0);
    let bases: Vec<i32> = constants.map(|(_, &base)| base as i32).collect();
    for (earlier, base) in bases.iter().enumerate() {
        let most = highest(earlier + 1, numbering.size) as i32;
        let range: Vec<i32> = (1..=most).map(|d| base + d).collect();
        take(&range);
        for d in 2..=most {
            let needed = bases[..earlier].iter().map(|other| other + d - 1);
            let clause: Vec<i32> = std::iter::once(-(base + d)).chain(needed).collect();
            take(&clause);
        }
    }
}

/// How many they are, and how many literals they have.
pub fn counts(problem: &Problem, size: usize) -> (u64, u64) {
    let constants = problem.functions.iter().filter(|function| function.arity == 0).count();
    let of_each = (1..=constants).map(|place| {
        let most = highest(place, size);
        (most as u64, (most + (most - 1) * place) as u64)
    });
    of_each.fold((0, 0), |(clauses, literals), (c, l)| (clauses + c, literals + l))
}

/// The highest value that the constant at this place, from 1, may take.
fn highest(place: usize, size: usize) -> usize {
    place.min(size)
}
