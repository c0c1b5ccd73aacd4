//! Names for fixed terms: each outermost term that has no variable and is no constant gets a helper constant, and equal terms
//! share one.
//!
//! A line may be long and its terms deep, so that words are walked here and no tree is built.

use crate::syntax::Word;

/// The helper constants of a sheet.
pub struct Helpers {
    /// The function that the first helper is: the declared ones come before.
    first: usize,
    /// The words of each helper's term, in order of first appearance.
    terms: Vec<Vec<Word>>,
}

impl Helpers {
    /// No helpers yet, behind so many declared functions.
    pub fn new(declared: usize) -> Self {
        Helpers {
            first: declared,
            terms: Vec::new(),
        }
    }

    pub fn count(&self) -> usize {
        self.terms.len()
    }

    /// The clause with the names put in. Terms that have none yet get the next ones.
    pub fn shorten(&mut self, clause: &[Word]) -> Vec<Word> {
        let ends = ends_of_fixed_terms(clause);
        let mut short = Vec::new();
        let mut at = 0;
        while at < clause.len() {
            match (clause[at], ends[at]) {
                (Word::Function { arity: 1.., .. }, Some(end)) => {
                    short.push(self.name(&clause[at..end]));
                    at = end;
                }
                (word, _) => {
                    short.push(word);
                    at += 1;
                }
            }
        }
        short
    }

    /// The helper's own clause: it equals its term.
    pub fn own_clause(&self, helper: usize) -> Vec<Word> {
        let mut clause = vec![Word::Plus, Word::Equals, self.constant(helper)];
        clause.extend(&self.terms[helper]);
        clause
    }

    fn name(&mut self, term: &[Word]) -> Word {
        let known = self.terms.iter().position(|t| t == term);
        let helper = known.unwrap_or_else(|| {
            self.terms.push(term.to_vec());
            self.terms.len() - 1
        });
        self.constant(helper)
    }

    fn constant(&self, helper: usize) -> Word {
        let index = self.first + helper;
        Word::Function { index, arity: 0 }
    }
}

/// For each word with which a term without variables begins: where the term ends.
fn ends_of_fixed_terms(clause: &[Word]) -> Vec<Option<usize>> {
    let mut ends = vec![None; clause.len()];
    // the terms of the literal that begin after the word, the nearest one last: where each ends, and whether it is fixed
    let mut after: Vec<(usize, bool)> = Vec::new();
    for (at, word) in clause.iter().enumerate().rev() {
        match *word {
            Word::Variable(_) => after.push((at + 1, false)),
            Word::Function { arity, .. } => {
                let arguments = after.split_off(after.len() - arity);
                let end = arguments.first().map_or(at + 1, |&(end, _)| end);
                let fixed = arguments.iter().all(|&(_, fixed)| fixed);
                after.push((end, fixed));
                ends[at] = fixed.then_some(end);
            }
            Word::Equals | Word::Predicate { .. } => after.clear(),
            Word::Plus | Word::Minus => {}
        }
    }
    ends
}
