//! Whole statements taken into a sheet, and what does not go into one (16, 17).

use super::statements::{Literal, Name, Statement};
use super::Fault;
use crate::flattening;
use crate::problem::{
    well_formed, LETTERS, MAX_ARITY, MAX_CLAUSES, MAX_LITERALS, MAX_SYMBOLS, MAX_VARIABLES, MAX_WORDS,
};
use crate::sheet::sheet_of;
use crate::syntax::{self, Symbol, Word};
use crate::Reason;

/// What has been taken so far: the symbols in order of first appearance, and the clauses.
#[derive(Default)]
pub struct Taken {
    functions: Vec<Symbol>,
    predicates: Vec<Symbol>,
    clauses: Vec<Vec<Word>>,
}

impl Taken {
    /// Takes one more statement, or answers its earliest fault.
    pub fn take(&mut self, statement: &Statement) -> Result<(), Fault> {
        if self.clauses.len() == MAX_CLAUSES {
            return Err(beyond(statement.start));
        }
        let mut words = Vec::new();
        let mut variables = Vec::new();
        for literal in &statement.literals {
            words.push(if literal.positive { Word::Plus } else { Word::Minus });
            if literal.is_equality {
                words.push(Word::Equals);
            }
            self.take_names(literal, &mut variables, &mut words)?;
        }
        if !within_limits(&words, statement.literals.len()) {
            return Err(beyond(statement.stop));
        }
        self.clauses.push(words);
        Ok(())
    }

    /// The words of a literal's names. The variables are those of the clause so far.
    fn take_names<'a>(
        &mut self,
        literal: &Literal<'a>,
        variables: &mut Vec<&'a [u8]>,
        words: &mut Vec<Word>,
    ) -> Result<(), Fault> {
        for (i, name) in literal.names.iter().enumerate() {
            words.push(if name.is_variable {
                Word::Variable(variable(name, variables)?)
            } else if i == 0 && !literal.is_equality {
                let index = entry(name, &mut self.predicates, &self.functions)?;
                Word::Predicate {
                    index,
                    arity: name.arguments,
                }
            } else {
                let index = entry(name, &mut self.functions, &self.predicates)?;
                Word::Function {
                    index,
                    arity: name.arguments,
                }
            });
        }
        Ok(())
    }

    /// The sheet's text.
    pub fn sheet(&self) -> Vec<u8> {
        let declared = |symbols: &[Symbol]| -> Vec<String> {
            let line = |s: &Symbol| format!("{}/{}", text(&s.name), s.arity);
            symbols.iter().map(line).collect()
        };
        let line = |words: &Vec<Word>| words.iter().map(|w| self.word(w)).collect::<Vec<_>>().join(" ");
        let (functions, predicates) = (declared(&self.functions), declared(&self.predicates));
        let clauses: Vec<String> = self.clauses.iter().map(line).collect();
        sheet_of(&strs(&functions), &strs(&predicates), &strs(&clauses))
    }

    fn word(&self, word: &Word) -> String {
        match *word {
            Word::Plus => "+".to_string(),
            Word::Minus => "-".to_string(),
            Word::Equals => "=".to_string(),
            Word::Variable(letter) => char::from(LETTERS.start() + letter as u8).to_string(),
            Word::Function { index, .. } => text(&self.functions[index].name),
            Word::Predicate { index, .. } => text(&self.predicates[index].name),
        }
    }
}

/// The place of a variable among the clause's, in order of first appearance.
fn variable<'a>(name: &Name<'a>, variables: &mut Vec<&'a [u8]>) -> Result<usize, Fault> {
    if let Some(known) = variables.iter().position(|v| *v == name.text) {
        return Ok(known);
    }
    if variables.len() == LETTERS.len() {
        return Err(beyond(name.place));
    }
    variables.push(name.text);
    Ok(variables.len() - 1)
}

/// The place of a symbol among those of its kind, in order of first appearance.
fn entry(name: &Name, own_kind: &mut Vec<Symbol>, other_kind: &[Symbol]) -> Result<usize, Fault> {
    let clash = Fault {
        reason: Reason::SymbolClash,
        place: name.place,
    };
    if other_kind.iter().any(|s| s.name == name.text) {
        return Err(clash);
    }
    if let Some(known) = own_kind.iter().position(|s| s.name == name.text) {
        let same = own_kind[known].arity == name.arguments;
        return if same { Ok(known) } else { Err(clash) };
    }
    if !well_formed(name.text) || name.arguments > MAX_ARITY || own_kind.len() == MAX_SYMBOLS {
        return Err(beyond(name.place));
    }
    own_kind.push(Symbol {
        name: name.text.to_vec(),
        arity: name.arguments,
    });
    Ok(own_kind.len() - 1)
}

/// Only a clause of few words is flattened: terms may nest thousands deep.
fn within_limits(words: &[Word], literals: usize) -> bool {
    words.len() <= MAX_WORDS
        && literals <= MAX_LITERALS
        && flattening::flatten(&syntax::clause(words)).variables <= MAX_VARIABLES
}

fn beyond(place: usize) -> Fault {
    Fault {
        reason: Reason::BeyondSheets,
        place,
    }
}

/// A well-formed name is text.
fn text(name: &[u8]) -> String {
    String::from_utf8_lossy(name).into_owned()
}

fn strs(lines: &[String]) -> Vec<&str> {
    lines.iter().map(String::as_str).collect()
}
