//! Clauses as trees, and how the words of a line are read into one.

/// A declared function or predicate.
pub struct Symbol {
    pub name: Vec<u8>,
    pub arity: usize,
}

#[derive(Clone, Debug, PartialEq, Eq)]
pub enum Term {
    /// A letter, A being 0.
    Variable(usize),
    Function(usize, Vec<Term>),
}

#[derive(Clone, Debug, PartialEq, Eq)]
pub enum Atom {
    Equality(Term, Term),
    Predicate(usize, Vec<Term>),
}

#[derive(Clone, Debug, PartialEq, Eq)]
pub struct Literal {
    pub positive: bool,
    pub atom: Atom,
}

pub type Clause = Vec<Literal>;

/// One word of a clause line.
#[derive(Clone, Copy, Debug, PartialEq, Eq)]
pub enum Word {
    Plus,
    Minus,
    Equals,
    Variable(usize),
    Function { index: usize, arity: usize },
    Predicate { index: usize, arity: usize },
}

/// The first word that cannot stand after those before it, or the number of words where more must follow; nothing where
/// the words make up a clause. No tree is built: a line may be long.
pub fn first_misplaced(words: &[Word]) -> Option<usize> {
    enum Due {
        Sign,
        Atom,
        Terms(usize),
    }
    let after = |terms: usize| match terms {
        0 => Due::Sign,
        n => Due::Terms(n),
    };
    let mut due = Due::Sign;
    for (i, &word) in words.iter().enumerate() {
        due = match (due, word) {
            (Due::Sign, Word::Plus | Word::Minus) => Due::Atom,
            (Due::Atom, Word::Equals) => Due::Terms(2),
            (Due::Atom, Word::Predicate { arity, .. }) => after(arity),
            (Due::Terms(n), Word::Variable(_)) => after(n - 1),
            (Due::Terms(n), Word::Function { arity, .. }) => after(n - 1 + arity),
            _ => return Some(i),
        };
    }
    match due {
        Due::Sign => None,
        _ => Some(words.len()),
    }
}

/// The clause that the words make up; they are known to be one.
pub fn clause(words: &[Word]) -> Clause {
    let mut rest = words.iter().copied();
    let mut literals = Vec::new();
    while let Some(sign) = rest.next() {
        literals.push(Literal {
            positive: sign == Word::Plus,
            atom: atom(&mut rest),
        });
    }
    literals
}

fn atom(rest: &mut impl Iterator<Item = Word>) -> Atom {
    match rest.next() {
        Some(Word::Equals) => {
            let left = term(rest);
            Atom::Equality(left, term(rest))
        }
        Some(Word::Predicate { index, arity }) => Atom::Predicate(index, terms(rest, arity)),
        _ => unreachable!("an atom stands here"),
    }
}

fn terms(rest: &mut impl Iterator<Item = Word>, count: usize) -> Vec<Term> {
    (0..count).map(|_| term(rest)).collect()
}

fn term(rest: &mut impl Iterator<Item = Word>) -> Term {
    match rest.next() {
        Some(Word::Variable(letter)) => Term::Variable(letter),
        Some(Word::Function { index, arity }) => Term::Function(index, terms(rest, arity)),
        _ => unreachable!("a term stands here"),
    }
}

/// The letters of a clause in order of first appearance.
pub fn letters(clause: &[Literal]) -> Vec<usize> {
    fn within(term: &Term, seen: &mut Vec<usize>) {
        match term {
            Term::Variable(letter) if !seen.contains(letter) => seen.push(*letter),
            Term::Variable(_) => {}
            Term::Function(_, arguments) => arguments.iter().for_each(|t| within(t, seen)),
        }
    }
    let mut seen = Vec::new();
    for literal in clause {
        match &literal.atom {
            Atom::Equality(left, right) => {
                within(left, &mut seen);
                within(right, &mut seen);
            }
            Atom::Predicate(_, arguments) => arguments.iter().for_each(|t| within(t, &mut seen)),
        }
    }
    seen
}
