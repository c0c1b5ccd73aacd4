//! Generated sheets with constants before, between and behind other functions, and with clauses that tell them apart.

use crate::draft::{Draft, Symbol};
use crate::fixed::{some, symbols};
use crate::random::Random;

/// From one constant to as many as there can be, with other functions and predicates of every arity.
pub fn ordinary(random: &mut Random) -> Draft {
    let constants = random.between(1, 12).min(random.between(1, 12));
    let others = some(random, &[("f", 1), ("g", 2), ("h", 3)], 0);
    let predicates = some(random, &[("o", 0), ("p", 1), ("r", 2), ("q", 3)], 0);
    let mut draft = mixed(random, constants, others, predicates);
    let different = random.between(0, constants);
    draft.clauses = inequalities(random, &draft, different);
    let (clauses, literals) = (random.between(0, 4), random.between(1, 3));
    draft.with_clauses(random, clauses, literals, 1)
}

/// So few cells that all cases with up to three elements can be tried.
pub fn tiny(random: &mut Random) -> Draft {
    let constants = random.between(1, 3);
    let others = some(random, &[("f", 1)], 0);
    let predicates = some(random, &[("p", 1)], 0);
    let mut draft = mixed(random, constants, others, predicates);
    let different = random.between(0, constants);
    draft.clauses = inequalities(random, &draft, different);
    let clauses = random.between(0, 3);
    draft.with_clauses(random, clauses, 2, 1)
}

/// Are all constants declared before other functions?
pub fn come_first(draft: &Draft) -> bool {
    draft.functions.is_sorted_by_key(|function| function.arity > 0)
}

/// The constants, and the other functions behind them or anywhere.
fn mixed(random: &mut Random, constants: usize, others: Vec<Symbol>, predicates: Vec<Symbol>) -> Draft {
    let names = ["a", "b", "c", "d", "e", "k", "l", "m", "n", "s", "t", "aa"];
    let mut functions = symbols(&names.map(|name| (name, 0))[..constants]);
    functions.truncate(12 - others.len());
    let anywhere = random.once_in(2);
    for other in others {
        let at = if anywhere {
            random.between(0, functions.len())
        } else {
            functions.len()
        };
        functions.insert(at, other);
    }
    Draft {
        functions,
        predicates,
        clauses: Vec::new(),
    }
}

/// Clauses that some so many constants are different.
fn inequalities(random: &mut Random, draft: &Draft, count: usize) -> Vec<Vec<String>> {
    let mut names: Vec<&str> = draft
        .functions
        .iter()
        .filter(|f| f.arity == 0)
        .map(|f| f.name.as_str())
        .collect();
    while names.len() > count {
        names.remove(random.below(names.len()));
    }
    let pairs = (0..names.len()).flat_map(|i| (0..i).map(move |j| (i, j)));
    let clause = |(i, j): (usize, usize)| ["-", "=", names[i], names[j]].map(str::to_string).to_vec();
    pairs.map(clause).collect()
}
