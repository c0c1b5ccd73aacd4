//! The search for the least model at one size as on a whiteboard: cells are filled in order, the least value first, the
//! tables are copied before each guess, and a full case is judged by truth alone. It shares nothing with [`crate::search`].

use crate::grounding::power;
use crate::interpretation::Interpretation;
use crate::problem::Problem;
use std::ops::RangeInclusive;

pub enum Outcome {
    /// The least model.
    Found(Interpretation),
    None,
    /// More cases are to be judged than were left.
    Stopped,
}

/// The least model at a size. Each case that is judged is taken from `allowance`.
pub fn least_model(problem: &Problem, size: usize, allowance: &mut u64) -> Outcome {
    let board = Board {
        problem,
        size,
        values: cell_values(problem, size),
    };
    board.fill(&[], allowance)
}

/// The values that each cell may have, in cell order.
pub fn cell_values(problem: &Problem, size: usize) -> Vec<RangeInclusive<u8>> {
    let functions = problem.functions.iter().map(|f| (f, 1..=size as u8));
    let predicates = problem.predicates.iter().map(|p| (p, 0..=1));
    functions
        .chain(predicates)
        .flat_map(|(symbol, values)| vec![values; power(size, symbol.arity)])
        .collect()
}

struct Board<'a> {
    problem: &'a Problem,
    size: usize,
    values: Vec<RangeInclusive<u8>>,
}

impl Board<'_> {
    /// The first model among the cases whose first cells are these.
    fn fill(&self, cells: &[u8], allowance: &mut u64) -> Outcome {
        let Some(values) = self.values.get(cells.len()) else {
            return self.judge(cells, allowance);
        };
        for value in values.clone() {
            let guess = [cells, &[value]].concat();
            match self.fill(&guess, allowance) {
                Outcome::None => {}
                outcome => return outcome,
            }
        }
        Outcome::None
    }

    fn judge(&self, cells: &[u8], allowance: &mut u64) -> Outcome {
        if *allowance == 0 {
            return Outcome::Stopped;
        }
        *allowance -= 1;
        let case = Interpretation::new(self.size, cells.to_vec());
        match case.first_failure(self.problem) {
            None => Outcome::Found(case),
            Some(_) => Outcome::None,
        }
    }
}
