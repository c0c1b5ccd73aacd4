//! The walk through clauses whose choices Find counts, written down plainly: every step looks at every clause.

use crate::dimacs::Dimacs;
use crate::draft::Draft;

/// Variables from 1, each yes, no or unset.
type Setting = Vec<Option<bool>>;

pub struct Walk {
    clauses: Vec<Vec<i32>>,
    /// What a choice tries first, for each variable.
    first: Vec<bool>,
    most: u64,
    choices: u64,
}

/// The walk makes more choices than it is let.
struct TooLong;

impl Walk {
    /// Through the clauses that Write leaves of the draft at a size. Yes comes first for functions, helpers among them, whose
    /// variables stand after those of the predicates; no for predicates.
    pub fn new(draft: &Draft, size: usize, clauses: &Dimacs, most: u64) -> Walk {
        let cells = |arity: usize| size.pow(arity as u32);
        let functions: usize = draft.functions.iter().map(|f| size * cells(f.arity)).sum();
        let predicates: usize = draft.predicates.iter().map(|p| cells(p.arity)).sum();
        let of_predicates = functions..functions + predicates;
        Walk {
            clauses: clauses.clauses().collect(),
            first: (0..clauses.variables).map(|n| !of_predicates.contains(&n)).collect(),
            most,
            choices: 0,
        }
    }

    /// Whether it ends in a setting that satisfies the clauses, and how many choices it makes; nothing where these are too many.
    pub fn walked(mut self) -> Option<(bool, u64)> {
        let unset = vec![None; self.first.len()];
        let satisfied = self.from(unset).ok()?;
        Some((satisfied, self.choices))
    }

    fn from(&mut self, setting: Setting) -> Result<bool, TooLong> {
        let Some(setting) = self.forced(setting) else {
            return Ok(false);
        };
        let Some(lowest) = setting.iter().position(Option::is_none) else {
            return Ok(true);
        };
        if self.choices == self.most {
            return Err(TooLong);
        }
        self.choices += 1;
        let first = self.first[lowest];
        let with = |value: bool| {
            let mut setting = setting.clone();
            setting[lowest] = Some(value);
            setting
        };
        Ok(self.from(with(first))? || self.from(with(!first))?)
    }

    /// The setting with all that clauses force; nothing where one is wholly false.
    fn forced(&self, mut setting: Setting) -> Option<Setting> {
        loop {
            let mut left = self.clauses.iter().filter_map(|clause| literals_left(clause, &setting));
            let Some(unset) = left.find(|unset| unset.len() < 2) else {
                return Some(setting);
            };
            let literal = *unset.first()?;
            setting[variable(literal)] = Some(literal > 0);
        }
    }
}

/// The unset literals of a clause, each once; nothing where one of its literals is true.
fn literals_left(clause: &[i32], setting: &Setting) -> Option<Vec<i32>> {
    let is_true = |&literal: &i32| setting[variable(literal)] == Some(literal > 0);
    if clause.iter().any(is_true) {
        return None;
    }
    let is_unset = |&literal: &i32| setting[variable(literal)].is_none();
    let mut unset: Vec<i32> = clause.iter().copied().filter(is_unset).collect();
    unset.sort();
    unset.dedup();
    Some(unset)
}

fn variable(literal: i32) -> usize {
    literal.unsigned_abs() as usize - 1
}
