//! Generated sheets with fixed terms, those without variables: shared in a clause and over clauses, one inside of another,
//! deep, many, and in long lines.

use crate::draft::{Draft, Symbol};
use crate::random::Random;

/// A term's words.
type Term = Vec<String>;

const LETTERS: [&str; 4] = ["A", "B", "C", "H"];

/// A few symbols, and clauses most of whose terms come from a few fixed ones.
pub fn ordinary(random: &mut Random) -> Draft {
    let constants = [("a", 0), ("b", 0), ("aa", 0)];
    let functions = [("f", 1), ("ff", 1), ("g", 2), ("h", 3)];
    let predicates = [("o", 0), ("p", 1), ("r", 2), ("q", 3)];
    let mut draft = Draft {
        functions: some(random, &constants, 1),
        predicates: some(random, &predicates, 0),
        clauses: Vec::new(),
    };
    for function in some(random, &functions, 1) {
        let at = random.between(0, draft.functions.len());
        draft.functions.insert(at, function);
    }
    let (clauses, literals, depth) = (random.between(1, 5), random.between(1, 4), random.between(1, 3));
    draft.with_clauses(random, clauses, literals, depth)
}

/// A sheet with so few cells that all its settings with two elements can be tried.
pub fn tiny(random: &mut Random) -> Draft {
    let mut draft = Draft {
        functions: symbols(&[("a", 0), ("f", 1)]),
        predicates: if random.once_in(3) {
            Vec::new()
        } else {
            symbols(&[("p", 1)])
        },
        clauses: Vec::new(),
    };
    if random.once_in(3) {
        draft.functions.insert(random.below(3), symbol(("b", 0)));
    }
    let clauses = random.between(1, 3);
    draft.with_clauses(random, clauses, 2, 3)
}

/// One clause in which one limit of clauses is nearly met or passed, and perhaps another clause around it.
pub fn around_limits(random: &mut Random) -> Draft {
    let mut draft = full_signature();
    let clause = match random.below(7) {
        // variables of helpers' own clauses
        0 => format!("+ p {}", deep(random.between(8, 11))),
        1 => format!("- = {} b", deep(random.between(8, 11))),
        // their words
        2 => format!("+ p {}", large(random.between(2, 5))),
        // names in a clause, lifted or on the left of an equality
        3 => joined(random.between(9, 12), |i| format!("+ p {}", different(i))),
        4 => joined(random.between(14, 17), |i| format!("- = {} A", different(i))),
        // literals
        5 => joined(random.between(15, 18), |i| format!("+ r A {}", different(i % 5))),
        // words with the names put in
        _ => {
            let last = random.pick(&["- o", "- p f a", "- r f a f b", "- q A f a B", "+ = a A - o"]);
            joined(12, |i| format!("+ q {} A {}", different(i % 3), different(i % 2))) + " " + last
        }
    };
    let clauses = match random.below(4) {
        0 => vec!["+ o".to_string(), clause],
        1 => vec![clause, format!("- p {}", different(random.below(20)))],
        _ => vec![clause],
    };
    draft.clauses = clauses.iter().map(|clause| words(clause)).collect();
    draft
}

/// About 32 different terms to name, in clauses that are taken; and now and then a clause after them that is not.
pub fn around_helpers(random: &mut Random) -> Draft {
    let mut draft = full_signature();
    let (count, each) = (random.between(30, 35), random.between(1, 9));
    let first = random.below(40);
    let terms: Vec<String> = (first..first + count).map(different).collect();
    for terms in terms.chunks(each) {
        let literals: Vec<String> = terms.iter().map(|term| format!("+ p {term}")).collect();
        draft.clauses.push(words(&literals.join(" ")));
    }
    match random.below(12) {
        0 => draft.clauses.push(words(&format!("+ p {}", deep(10)))),
        1 => draft.clauses.push(words("+ p x")),
        2 => draft.clauses.push(words("+ p")),
        // names that are known
        3 | 4 => draft
            .clauses
            .push(words(&format!("- p {} - r {} a", terms[0], terms[count - 1]))),
        _ => {}
    }
    draft
}

/// A line of hundreds or thousands of words, up to the bytes that a sheet may have: taken, or over a limit.
pub fn long_line(random: &mut Random) -> Draft {
    let mut draft = full_signature();
    let line = match random.below(4) {
        0 => format!("+ p {}", deep(random.between(100, 8_000))),
        1 => joined(random.between(20, 4_000), |i| format!("+ p {}", different(i % 7))),
        _ => {
            let most = random.between(2, 4);
            joined(random.between(8, 13), |i| {
                format!("+ q {} {} {}", large(i % most), large((i + 1) % most), large(most))
            })
        }
    };
    draft.clauses = vec![words(&line), words("- p f a")];
    draft
}

/// Functions and predicates of each arity.
fn full_signature() -> Draft {
    Draft {
        functions: symbols(&[("a", 0), ("b", 0), ("f", 1), ("g", 2), ("h", 3)]),
        predicates: symbols(&[("o", 0), ("p", 1), ("r", 2), ("q", 3)]),
        clauses: Vec::new(),
    }
}

/// `f` so many times on `a`.
fn deep(times: usize) -> String {
    "f ".repeat(times) + "a"
}

/// A term of 58 words and so many more: of 61 words, its helper's own clause has 64.
fn large(more: usize) -> String {
    let thrice = |term: &str| format!("h {term} {term} {term}");
    let four = thrice("a");
    let thirteen = thrice(&four);
    format!("h {} {thirteen} {}{four}", thrice(&thirteen), "f ".repeat(more))
}

/// Different terms to name, none inside of another's own place.
fn different(number: usize) -> String {
    let leaf = ["a", "b", "f a", "f b", "g a b", "g b a", "f f a", "f f b"];
    match number {
        0..8 => format!("f {}", leaf[number]),
        _ => format!("g {} {}", leaf[(number - 8) / 8 % 8], leaf[(number - 8) % 8]),
    }
}

fn joined(count: usize, literal: impl Fn(usize) -> String) -> String {
    (0..count).map(literal).collect::<Vec<_>>().join(" ")
}

fn words(clause: &str) -> Term {
    clause.split(' ').map(str::to_string).collect()
}

fn symbol((name, arity): (&str, usize)) -> Symbol {
    let name = name.to_string();
    Symbol { name, arity }
}

pub(crate) fn symbols(all: &[(&str, usize)]) -> Vec<Symbol> {
    all.iter().copied().map(symbol).collect()
}

/// At least so many of them, in their order.
pub(crate) fn some(random: &mut Random, all: &[(&str, usize)], least: usize) -> Vec<Symbol> {
    let count = random.between(least, all.len().min(least + 2));
    let mut taken: Vec<(&str, usize)> = all.to_vec();
    while taken.len() > count {
        taken.remove(random.below(taken.len()));
    }
    symbols(&taken)
}

impl Draft {
    pub(crate) fn with_clauses(mut self, random: &mut Random, clauses: usize, literals: usize, depth: usize) -> Draft {
        let pool: Vec<Term> = (0..random.between(1, 4)).map(|_| self.fixed(random, depth)).collect();
        for _ in 0..clauses {
            let mut clause = Vec::new();
            for _ in 0..random.between(1, literals) {
                clause.extend(self.literal(random, &pool, depth));
            }
            self.clauses.push(clause);
        }
        self
    }

    fn literal(&self, random: &mut Random, pool: &[Term], depth: usize) -> Term {
        let mut literal = vec![random.pick(&["+", "-"]).to_string()];
        let arguments = if self.predicates.is_empty() || random.once_in(3) {
            literal.push("=".to_string());
            2
        } else {
            let predicate = random.pick(&self.predicates);
            literal.push(predicate.name.clone());
            predicate.arity
        };
        (0..arguments).for_each(|_| literal.extend(self.term(random, pool, depth)));
        literal
    }

    fn term(&self, random: &mut Random, pool: &[Term], depth: usize) -> Term {
        match random.below(8) {
            0 | 1 => vec![random.pick(&LETTERS).to_string()],
            2..=4 => random.pick(pool).clone(),
            5 => self.fixed(random, depth),
            _ => {
                let function = random.pick(&self.functions);
                let mut term = vec![function.name.clone()];
                (0..function.arity).for_each(|_| term.extend(self.term(random, pool, depth.saturating_sub(1))));
                term
            }
        }
    }

    /// A term without variables, at most so deep.
    fn fixed(&self, random: &mut Random, depth: usize) -> Term {
        let may_stand = |function: &&Symbol| depth > 0 || function.arity == 0;
        let functions: Vec<&Symbol> = self.functions.iter().filter(may_stand).collect();
        let function = random.pick(&functions);
        let mut term = vec![function.name.clone()];
        (0..function.arity).for_each(|_| term.extend(self.fixed(random, depth - 1)));
        term
    }
}
