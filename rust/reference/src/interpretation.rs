//! Cases: their text both ways, and truth.

use crate::grounding::power;
use crate::lines::{Line, Lines};
use crate::problem::{Problem, LETTERS};
use crate::syntax::{self, Atom, Literal, Term};
use crate::{FirstFailure, Reason, Refusal};
use std::ops::RangeInclusive;

/// A full table for each symbol, at a size: the values of all cells in line order, as the text writes them.
pub struct Interpretation {
    pub size: usize,
    pub cells: Vec<u8>,
}

impl Interpretation {
    pub fn new(size: usize, cells: Vec<u8>) -> Self {
        Interpretation { size, cells }
    }

    /// Reads a case of the problem; refusal 12 names the first line that is not as laid out, and where in it.
    pub fn read(problem: &Problem, case: &[u8]) -> Result<Self, Refusal> {
        let mut lines = Lines::new(case, Reason::BadCase);
        let mut first = lines.next();
        first.bytes(b"case=1")?;
        first.end()?;
        let size = read_size(lines.next())?;
        let mut cells = Vec::new();
        let functions = problem.functions.iter().map(|f| (f, 1..=size as u8));
        let predicates = problem.predicates.iter().map(|p| (p, 0..=1));
        for (symbol, values) in functions.chain(predicates) {
            let mut line = lines.next();
            line.bytes(&symbol.name)?;
            cells.extend(read_values(line, power(size, symbol.arity), values)?);
        }
        lines.end()?;
        Ok(Interpretation { size, cells })
    }

    /// The case's text.
    pub fn text(&self, problem: &Problem) -> Vec<u8> {
        let mut text = format!("case=1\nsize={}\n", self.size).into_bytes();
        let mut rest = self.cells.as_slice();
        for symbol in problem.functions.iter().chain(&problem.predicates) {
            let (values, after) = rest.split_at(power(self.size, symbol.arity));
            rest = after;
            text.extend_from_slice(&symbol.name);
            text.push(b'=');
            for value in values {
                text.extend_from_slice(&[b'0' + value, b' ']);
            }
            *text.last_mut().expect("a value was written") = b'\n';
        }
        text
    }

    /// One byte for each propositional variable: a function cell has one for each result, and that of its value is 1; a
    /// predicate cell has its own.
    pub fn setting(&self, problem: &Problem) -> Vec<u8> {
        let function_cells = problem.functions.iter().map(|f| power(self.size, f.arity)).sum();
        let (functions, predicates) = self.cells.split_at(function_cells);
        let results = |&value: &u8| (1..=self.size as u8).map(move |result| u8::from(result == value));
        functions
            .iter()
            .flat_map(results)
            .chain(predicates.iter().copied())
            .collect()
    }

    /// The first clause with no true literal for some elements that its letters stand for, and the first such elements.
    pub fn first_failure(&self, problem: &Problem) -> Option<FirstFailure> {
        let tables = Tables::new(problem, self);
        let mut clauses = (1..).zip(&problem.clauses);
        clauses.find_map(|(number, clause)| {
            let letters = syntax::letters(clause);
            let choice = tables.failing_choice(clause, &letters)?;
            let pair = |&letter: &usize| (char::from(LETTERS.start() + letter as u8), choice[letter] as u8 + 1);
            Some(FirstFailure::new(number, letters.iter().map(pair)))
        })
    }
}

/// The length of every case at a size.
pub fn text_length(problem: &Problem, size: usize) -> usize {
    let symbols = problem.functions.iter().chain(&problem.predicates);
    let lines = symbols.map(|s| s.name.len() + 1 + 2 * power(size, s.arity));
    14 + lines.sum::<usize>()
}

fn read_size(mut line: Line) -> Result<usize, Refusal> {
    line.bytes(b"size=")?;
    let digit = line.byte(b'1'..=b'8')?;
    line.end()?;
    Ok((digit - b'0') as usize)
}

/// `=` and so many values, with one space between.
fn read_values(mut line: Line, count: usize, values: RangeInclusive<u8>) -> Result<Vec<u8>, Refusal> {
    let digits = b'0' + values.start()..=b'0' + values.end();
    let mut cells = Vec::new();
    for i in 0..count {
        line.bytes(if i == 0 { b"=" } else { b" " })?;
        cells.push(line.byte(digits.clone())? - b'0');
    }
    line.end()?;
    Ok(cells)
}

/// The tables of an interpretation. Elements are counted from 0 here.
struct Tables<'a> {
    size: usize,
    functions: Vec<&'a [u8]>,
    predicates: Vec<&'a [u8]>,
}

/// The element that each letter stands for.
type Choice = [usize; 8];

impl<'a> Tables<'a> {
    fn new(problem: &Problem, interpretation: &'a Interpretation) -> Self {
        let size = interpretation.size;
        let mut rest = interpretation.cells.as_slice();
        let mut table = |arity: usize| {
            let (table, after) = rest.split_at(power(size, arity));
            rest = after;
            table
        };
        let functions = problem.functions.iter().map(|f| table(f.arity)).collect();
        let predicates = problem.predicates.iter().map(|p| table(p.arity)).collect();
        Tables {
            size,
            functions,
            predicates,
        }
    }

    /// The first choice for these letters, which are the clause's, under which no literal is true.
    fn failing_choice(&self, clause: &[Literal], letters: &[usize]) -> Option<Choice> {
        let mut choice = [0; 8];
        loop {
            if !clause.iter().any(|literal| self.literal(literal, &choice)) {
                return Some(choice);
            }
            if !self.step(letters, &mut choice) {
                return None;
            }
        }
    }

    /// The next choice, the last letter fastest; after the last one all is as in the first.
    fn step(&self, letters: &[usize], choice: &mut Choice) -> bool {
        for &letter in letters.iter().rev() {
            choice[letter] += 1;
            if choice[letter] < self.size {
                return true;
            }
            choice[letter] = 0;
        }
        false
    }

    fn literal(&self, literal: &Literal, choice: &Choice) -> bool {
        let atom = match &literal.atom {
            Atom::Equality(left, right) => self.term(left, choice) == self.term(right, choice),
            Atom::Predicate(p, arguments) => self.predicates[*p][self.cell(arguments, choice)] == 1,
        };
        atom == literal.positive
    }

    fn term(&self, term: &Term, choice: &Choice) -> usize {
        match term {
            Term::Variable(letter) => choice[*letter],
            Term::Function(f, arguments) => self.functions[*f][self.cell(arguments, choice)] as usize - 1,
        }
    }

    /// The place of the arguments in a table, the last argument fastest.
    fn cell(&self, arguments: &[Term], choice: &Choice) -> usize {
        let digits = arguments.iter().map(|t| self.term(t, choice));
        digits.fold(0, |cell, digit| cell * self.size + digit)
    }
}
