//! Plain search for the least model at one size: unit propagation, the lowest unset variable, the latest untried choice.
//!
//! Each clause knows how many of its distinct literals are not false, and the exclusive or of their codes, which is the
//! last one's code where one is left. Undoing is the exact inverse.

use crate::grounding::{for_each_clause, Numbering};
use crate::problem::Problem;
use crate::Symmetry;
use std::ops::Range;

pub enum Outcome {
    /// The least model's cells.
    Found(Vec<u8>),
    None,
    /// More choices are needed than were left.
    Stopped,
}

/// The least model at a size, of those that satisfy the constant clauses where symmetry is reduced. Each choice is taken from
/// `allowance`.
pub fn least_model(problem: &Problem, size: usize, symmetry: Symmetry, allowance: &mut u64) -> Outcome {
    let numbering = Numbering::new(problem, size);
    let Some(mut search) = Search::load(problem, size, symmetry, &numbering) else {
        return Outcome::None;
    };
    match search.run(allowance) {
        Ended::Exhausted => Outcome::None,
        Ended::Stopped => Outcome::Stopped,
        Ended::Satisfied => {
            let yes = |variable: usize| search.values[variable] == 0;
            let cells = numbering.cells(problem, yes);
            Outcome::Found(cells.expect("each function cell has one result"))
        }
    }
}

/// A literal's code: twice the variable, counted from 0, and one more if negative.
type Code = u32;

/// The literals of a clause that are not false: their number times [`ONE`], and the exclusive or of their codes, in one
/// word. A clause has at most 26 literals, and a code is below 2^17.
type Left = u32;

const ONE: Left = 1 << 24;

const UNSET: u8 = 2;

enum Ended {
    Satisfied,
    Exhausted,
    Stopped,
}

struct Search {
    variables: u32,
    /// The variables of predicates: no comes first. For all others, those of functions, yes does.
    of_predicates: Range<u32>,
    clauses: Vec<Left>,
    /// The clauses of each literal: from `starts[code]` to `starts[code + 1]` in `occurrences`.
    starts: Vec<u32>,
    occurrences: Vec<u32>,
    /// Per variable: the last bit of its true literal's code, or [`UNSET`].
    values: Vec<u8>,
    /// The true literals in the order in which they became so; the first `done` are propagated.
    trail: Vec<Code>,
    done: usize,
    /// Places in the trail of the choices whose other value is untried.
    untried: Vec<usize>,
    /// All variables below are set.
    lowest: u32,
}

impl Search {
    /// The clauses in memory, one-literal clauses at the front of the trail; nothing where a clause is empty.
    fn load(problem: &Problem, size: usize, symmetry: Symmetry, numbering: &Numbering) -> Option<Self> {
        let codes = 2 * numbering.variables;
        let mut seen = vec![u32::MAX; codes];
        let mut clauses: Vec<Left> = Vec::new();
        let mut entered: Vec<(Code, u32)> = Vec::new();
        let mut starts = vec![0; codes + 1];
        for_each_clause(problem, size, symmetry, |clause| {
            let index = clauses.len() as u32;
            let mut left = 0;
            for &number in clause {
                let code = 2 * (number.unsigned_abs() - 1) + (number < 0) as u32;
                if seen[code as usize] != index {
                    seen[code as usize] = index;
                    left = with(left, code);
                    starts[code as usize + 1] += 1;
                    entered.push((code, index));
                }
            }
            clauses.push(left);
        });
        for code in 0..codes {
            starts[code + 1] += starts[code];
        }
        let mut next = starts.clone();
        let mut occurrences = vec![0; entered.len()];
        for (code, index) in entered {
            occurrences[next[code as usize] as usize] = index;
            next[code as usize] += 1;
        }
        let mut search = Search {
            variables: numbering.variables as u32,
            of_predicates: numbering.of_predicates.start as u32..numbering.of_predicates.end as u32,
            clauses,
            starts,
            occurrences,
            values: vec![UNSET; numbering.variables],
            trail: Vec::with_capacity(numbering.variables),
            done: 0,
            untried: Vec::new(),
            lowest: 0,
        };
        search.take_units().then_some(search)
    }

    fn take_units(&mut self) -> bool {
        for index in 0..self.clauses.len() {
            let left = self.clauses[index];
            if left < ONE {
                return false;
            }
            if left < 2 * ONE {
                self.force(left - ONE);
            }
        }
        true
    }

    fn run(&mut self, allowance: &mut u64) -> Ended {
        loop {
            if !self.propagate() {
                if !self.go_back() {
                    return Ended::Exhausted;
                }
                continue;
            }
            while self.lowest < self.variables && self.is_set(2 * self.lowest) {
                self.lowest += 1;
            }
            if self.lowest == self.variables {
                return Ended::Satisfied;
            }
            if *allowance == 0 {
                return Ended::Stopped;
            }
            *allowance -= 1;
            let no_first = self.of_predicates.contains(&self.lowest);
            self.untried.push(self.trail.len());
            self.set(2 * self.lowest + no_first as u32);
        }
    }

    /// Takes the latest untried choice the other way, if there is one.
    fn go_back(&mut self) -> bool {
        let Some(place) = self.untried.pop() else {
            return false;
        };
        let choice = self.trail[place];
        while self.trail.len() > place {
            let code = self.trail.pop().expect("the trail is longer than the place");
            self.values[code as usize / 2] = UNSET;
            if self.trail.len() < self.done {
                self.restore(code ^ 1);
            }
        }
        self.done = place.min(self.done);
        self.lowest = choice / 2;
        self.set(choice ^ 1);
        true
    }

    /// Propagates to the end; false where a clause is wholly false.
    fn propagate(&mut self) -> bool {
        while self.done < self.trail.len() {
            let code = self.trail[self.done];
            self.done += 1;
            if !self.falsify(code ^ 1) {
                return false;
            }
        }
        true
    }

    /// Takes a false literal out of its clauses, always out of all; false where a clause is left empty.
    fn falsify(&mut self, code: Code) -> bool {
        let mut holds = true;
        let block = &self.occurrences[self.starts[code as usize] as usize..self.starts[code as usize + 1] as usize];
        for &index in block {
            let left = without(self.clauses[index as usize], code);
            self.clauses[index as usize] = left;
            if left < ONE {
                holds = false;
            } else if left < 2 * ONE {
                let last = left - ONE;
                if self.values[last as usize / 2] == UNSET {
                    self.values[last as usize / 2] = (last % 2) as u8;
                    self.trail.push(last);
                }
            }
        }
        holds
    }

    fn restore(&mut self, code: Code) {
        let block = &self.occurrences[self.starts[code as usize] as usize..self.starts[code as usize + 1] as usize];
        for &index in block {
            let left = &mut self.clauses[index as usize];
            *left = with(*left, code);
        }
    }

    /// Sets the literal true unless its variable is set. A false one shows when its own turn to propagate comes.
    fn force(&mut self, code: Code) {
        if !self.is_set(code) {
            self.set(code);
        }
    }

    fn set(&mut self, code: Code) {
        self.values[code as usize / 2] = (code % 2) as u8;
        self.trail.push(code);
    }

    fn is_set(&self, code: Code) -> bool {
        self.values[code as usize / 2] != UNSET
    }
}

fn with(left: Left, code: Code) -> Left {
    (left + ONE) ^ code
}

fn without(left: Left, code: Code) -> Left {
    (left - ONE) ^ code
}
