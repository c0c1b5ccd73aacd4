//! An accepted sheet as these checks see it: the numbering of its cells, and its clauses as TPTP text.

use std::collections::HashMap;

pub struct Sheet {
    pub bytes: Vec<u8>,
    symbols: Vec<Symbol>,
    clauses: Vec<String>,
}

struct Symbol {
    name: String,
    arity: usize,
    is_function: bool,
}

/// One cell of a case: its first propositional variable, and its value as the case writes it.
pub struct Cell {
    first: i32,
    results: Option<i32>,
    value: i32,
}

impl Cell {
    /// The number that is true exactly if the cell has this value.
    pub fn as_found(&self) -> i32 {
        match (self.results, self.value) {
            (Some(_), value) => self.first + value - 1,
            (None, 0) => -self.first,
            (None, _) => self.first,
        }
    }

    /// Numbers that are true exactly if the cell has a smaller value, where it can have one.
    pub fn smaller(&self) -> Option<Vec<i32>> {
        match (self.results, self.value) {
            (_, 0) | (Some(_), 1) => None,
            (Some(results), value) => Some((value..=results).map(|d| -(self.first + d - 1)).collect()),
            (None, _) => Some(vec![-self.first]),
        }
    }
}

impl Sheet {
    pub fn new(bytes: &[u8]) -> Self {
        let text = String::from_utf8(bytes.to_vec()).expect("an accepted sheet is text");
        let mut sheet = Sheet {
            bytes: bytes.to_vec(),
            symbols: Vec::new(),
            clauses: Vec::new(),
        };
        for line in text.lines() {
            match line.split_once('=').expect("each line has a key") {
                ("fun", symbol) => sheet.declare(symbol, true),
                ("pred", symbol) => sheet.declare(symbol, false),
                ("clause", words) => sheet.clauses.push(words.to_string()),
                _ => {}
            }
        }
        sheet
    }

    fn declare(&mut self, symbol: &str, is_function: bool) {
        let (name, arity) = symbol.split_once('/').expect("a symbol has an arity");
        let arity = arity.parse().expect("an arity is a digit");
        self.symbols.push(Symbol {
            name: name.to_string(),
            arity,
            is_function,
        });
    }

    /// The cells of a case in order.
    pub fn cells(&self, size: usize, case: &[u8]) -> Vec<Cell> {
        let case = String::from_utf8_lossy(case);
        let mut next = 1;
        let mut cells = Vec::new();
        for (symbol, line) in self.symbols.iter().zip(case.lines().skip(2)) {
            let (_, values) = line.split_once('=').expect("each line has a key");
            let results = symbol.is_function.then_some(size as i32);
            for value in values.split(' ') {
                cells.push(Cell {
                    first: next,
                    results,
                    value: value.parse().expect("a value is a digit"),
                });
                next += results.unwrap_or(1);
            }
        }
        cells
    }

    /// The clauses in the language of TPTP.
    pub fn tptp(&self) -> Vec<u8> {
        let arities = self.symbols.iter().map(|s| (s.name.as_str(), s.arity)).collect();
        let clauses = self.clauses.iter().zip(1..);
        let statement = |(words, n): (&String, usize)| format!("cnf(c{n}, axiom, {}).\n", tptp_clause(words, &arities));
        clauses.map(statement).collect::<String>().into_bytes()
    }
}

type Arities<'a> = HashMap<&'a str, usize>;

fn tptp_clause(words: &str, arities: &Arities) -> String {
    let mut rest = words.split(' ').filter(|word| !word.is_empty());
    let mut literals = Vec::new();
    while let Some(sign) = rest.next() {
        literals.push(tptp_literal(sign == "+", &mut rest, arities));
    }
    if literals.is_empty() {
        return "$false".to_string();
    }
    literals.join(" | ")
}

fn tptp_literal<'a>(positive: bool, rest: &mut impl Iterator<Item = &'a str>, arities: &Arities) -> String {
    match rest.next().expect("an atom follows its sign") {
        "=" => {
            let left = tptp_term(rest, arities);
            let right = tptp_term(rest, arities);
            format!("{left} {} {right}", if positive { "=" } else { "!=" })
        }
        predicate => {
            let atom = applied(predicate, rest, arities);
            if positive {
                atom
            } else {
                format!("~ {atom}")
            }
        }
    }
}

fn tptp_term<'a>(rest: &mut impl Iterator<Item = &'a str>, arities: &Arities) -> String {
    let word = rest.next().expect("a term stands here");
    applied(word, rest, arities)
}

/// A symbol with its arguments. Variables have none.
fn applied<'a>(word: &str, rest: &mut impl Iterator<Item = &'a str>, arities: &Arities) -> String {
    match arities.get(word).copied().unwrap_or(0) {
        0 => word.to_string(),
        arity => {
            let arguments: Vec<String> = (0..arity).map(|_| tptp_term(rest, arities)).collect();
            format!("{word}({})", arguments.join(","))
        }
    }
}

/// The size that a case states.
pub fn size(case: &[u8]) -> u64 {
    let text = String::from_utf8_lossy(case);
    let line = text.lines().nth(1).and_then(|line| line.strip_prefix("size="));
    line.and_then(|digit| digit.parse().ok())
        .expect("a case states its size")
}
