//! Sheets with about as many instances as there may be, for Write and Find.

use crate::shapes::strs;
use nesskettle::Terms::AsWritten;
use nesskettle_reference::{instances_and_variables, sheet_of};
use nesskettle_trials::options::not_asked;

const MOST_INSTANCES: usize = 1_000_000;

/// A sheet with about as many instances at a size as there may be.
pub struct Instances {
    pub name: String,
    pub sheet: Vec<u8>,
    pub size: u64,
}

/// Such sheets: all predicates of one arity, clauses of so many letters, each as long as it may be, with as many
/// functions as there may be or none. With functions the variables have higher numbers, and the text is longer.
pub fn at_instance_limit() -> Vec<Instances> {
    let mut found = Vec::new();
    for size in 2..=8_usize {
        for letters in 1..=8 {
            for arity in 1..=3 {
                for functions in [0, 12] {
                    let own = functions * size.pow(3) * (1 + size * (size - 1) / 2);
                    let count = (MOST_INSTANCES - own) / size.pow(letters);
                    found.extend((count > 0).then(|| instances(size, letters as usize, arity, functions, count)));
                }
            }
        }
    }
    let most = |shape: &Instances| {
        let counted = instances_and_variables(&shape.sheet, shape.size, not_asked(AsWritten));
        counted.is_ok_and(|(instances, _)| instances as usize > MOST_INSTANCES / 2)
    };
    found.into_iter().filter(most).collect()
}

fn instances(size: usize, letters: usize, arity: usize, functions: usize, count: usize) -> Instances {
    let literals = 64 / (arity + 2);
    let letter = |i: usize| char::from(b'A' + (i % letters) as u8).to_string();
    let literal = |j: usize| {
        let arguments: Vec<String> = (0..arity).map(|k| letter(arity * j + k + j / letters)).collect();
        format!("- p{} {}", 11 - j % 12, arguments.join(" "))
    };
    let clause = (0..literals.min(16)).map(literal).collect::<Vec<_>>().join(" ");
    let functions: Vec<String> = (0..functions).map(|i| format!("f{i}/3")).collect();
    let predicates: Vec<String> = (0..12).map(|i| format!("p{i}/{arity}")).collect();
    let clauses = vec![clause.as_str(); count.min(64)];
    Instances {
        name: format!(
            "{} functions, {} clauses `{clause}` at size {size}",
            functions.len(),
            clauses.len()
        ),
        sheet: sheet_of(&strs(&functions), &strs(&predicates), &clauses),
        size: size as u64,
    }
}
