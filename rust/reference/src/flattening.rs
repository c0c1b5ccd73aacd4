//! Steps 1 and 2: from a clause to shallow literals.

use crate::syntax::{self, Atom, Clause, Literal, Term};

/// A clause of shallow literals. Its variables are numbered from 0: the clause's own in order of first appearance, then
/// the new ones.
#[derive(Debug, PartialEq, Eq)]
pub struct FlatClause {
    pub variables: usize,
    pub literals: Vec<FlatLiteral>,
}

#[derive(Debug, PartialEq, Eq)]
pub struct FlatLiteral {
    pub positive: bool,
    pub shape: Shape,
}

/// The three shallow shapes, over variables.
#[derive(Debug, PartialEq, Eq)]
pub enum Shape {
    Predicate(usize, Vec<usize>),
    FunctionResult(usize, Vec<usize>, usize),
    VariableEquality(usize, usize),
}

pub fn flatten(clause: &[Literal]) -> FlatClause {
    let clause = without_variable_inequalities(clause.to_vec());
    let mut lifting = Lifting {
        own: syntax::letters(&clause),
        lifted: Vec::new(),
        definitions: Vec::new(),
    };
    let own: Vec<FlatLiteral> = clause.iter().map(|l| lifting.literal(l)).collect();
    let variables = lifting.own.len() + lifting.lifted.len();
    let mut literals = lifting.definitions;
    literals.extend(own);
    FlatClause { variables, literals }
}

/// Step 1: the leftmost negative equality of two variables goes, its first variable standing for its second everywhere,
/// until none is left.
fn without_variable_inequalities(mut clause: Clause) -> Clause {
    while let Some((place, first, second)) = leftmost_variable_inequality(&clause) {
        clause.remove(place);
        for literal in &mut clause {
            match &mut literal.atom {
                Atom::Equality(left, right) => {
                    rename(left, second, first);
                    rename(right, second, first);
                }
                Atom::Predicate(_, arguments) => arguments.iter_mut().for_each(|t| rename(t, second, first)),
            }
        }
    }
    clause
}

fn leftmost_variable_inequality(clause: &[Literal]) -> Option<(usize, usize, usize)> {
    clause.iter().enumerate().find_map(|(place, literal)| match literal {
        Literal {
            positive: false,
            atom: Atom::Equality(Term::Variable(first), Term::Variable(second)),
        } => Some((place, *first, *second)),
        _ => None,
    })
}

fn rename(term: &mut Term, from: usize, to: usize) {
    match term {
        Term::Variable(letter) if *letter == from => *letter = to,
        Term::Variable(_) => {}
        Term::Function(_, arguments) => arguments.iter_mut().for_each(|t| rename(t, from, to)),
    }
}

/// Step 2's state: the clause's own letters, the terms lifted so far, and their defining literals.
struct Lifting<'a> {
    own: Vec<usize>,
    lifted: Vec<&'a Term>,
    definitions: Vec<FlatLiteral>,
}

impl<'a> Lifting<'a> {
    fn literal(&mut self, literal: &'a Literal) -> FlatLiteral {
        FlatLiteral {
            positive: literal.positive,
            shape: self.shape(&literal.atom),
        }
    }

    fn shape(&mut self, atom: &'a Atom) -> Shape {
        match atom {
            Atom::Predicate(p, arguments) => Shape::Predicate(*p, self.variables(arguments)),
            Atom::Equality(Term::Function(f, arguments), right) => {
                let arguments = self.variables(arguments);
                Shape::FunctionResult(*f, arguments, self.variable(right))
            }
            // turned: the function stands left
            Atom::Equality(left, Term::Function(f, arguments)) => {
                let arguments = self.variables(arguments);
                Shape::FunctionResult(*f, arguments, self.variable(left))
            }
            Atom::Equality(left, right) => Shape::VariableEquality(self.variable(left), self.variable(right)),
        }
    }

    fn variables(&mut self, terms: &'a [Term]) -> Vec<usize> {
        terms.iter().map(|t| self.variable(t)).collect()
    }

    /// The variable that stands for the term: its own, or that of the lifted term, inner terms first.
    fn variable(&mut self, term: &'a Term) -> usize {
        match term {
            Term::Variable(letter) => place(&self.own, letter).expect("each letter is listed"),
            Term::Function(f, arguments) => {
                if let Some(known) = place(&self.lifted, &term) {
                    return self.own.len() + known;
                }
                let arguments = self.variables(arguments);
                let fresh = self.own.len() + self.lifted.len();
                self.lifted.push(term);
                self.definitions.push(FlatLiteral {
                    positive: false,
                    shape: Shape::FunctionResult(*f, arguments, fresh),
                });
                fresh
            }
        }
    }
}

fn place<T: PartialEq>(list: &[T], value: &T) -> Option<usize> {
    list.iter().position(|v| v == value)
}
