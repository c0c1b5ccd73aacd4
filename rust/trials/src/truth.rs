//! Truth of a clause's words in a case, read off the case's tables by name.

use crate::draft::{Draft, Symbol};
use std::collections::{BTreeSet, HashMap};
use std::ops::Range;

/// Letters, each with the element, from 1, that it stands for.
pub type Choice = [(char, u8)];

/// The tables of a case that belongs to a draft.
pub struct Tables<'a> {
    pub size: usize,
    symbols: HashMap<&'a str, (usize, Vec<usize>)>,
}

impl<'a> Tables<'a> {
    /// The tables of a case that is laid out as it must be.
    pub fn new(draft: &'a Draft, case: &[u8]) -> Self {
        let text = std::str::from_utf8(case).expect("a case is text");
        let mut lines = text
            .lines()
            .map(|line| line.split_once('=').expect("a line has a key").1);
        let size = lines
            .nth(1)
            .and_then(|s| s.parse().ok())
            .expect("the size comes second");
        let numbers = |line: &str| line.split(' ').map(|n| n.parse().expect("a number")).collect();
        let symbols = draft.symbols().zip(lines);
        let symbols = symbols.map(|(s, line)| (s.name.as_str(), (s.arity, numbers(line))));
        Tables {
            size,
            symbols: symbols.collect(),
        }
    }

    /// Is every literal of the clause false under this choice?
    pub fn fails(&self, clause: &[String], choice: &Choice) -> bool {
        let mut words = clause.iter().map(String::as_str);
        while let Some(sign) = words.next() {
            let holds = match words.next().expect("an atom after the sign") {
                "=" => self.term(&mut words, choice) == self.term(&mut words, choice),
                name => self.entry(name, &mut words, choice) == 1,
            };
            if holds == (sign == "+") {
                return false;
            }
        }
        true
    }

    fn term<'w>(&self, words: &mut impl Iterator<Item = &'w str>, choice: &Choice) -> usize {
        let word = words.next().expect("a term");
        let letter = choice.iter().find(|(letter, _)| word == letter.to_string());
        match letter {
            Some((_, value)) => *value as usize,
            None => self.entry(word, words, choice),
        }
    }

    /// The symbol's entry for the arguments that come next, the last one fastest.
    fn entry<'w>(&self, name: &str, words: &mut impl Iterator<Item = &'w str>, choice: &Choice) -> usize {
        let (arity, table) = &self.symbols[name];
        let cell = (0..*arity).fold(0, |cell, _| cell * self.size + self.term(words, choice) - 1);
        table[cell]
    }
}

/// Is the case a model of the draft's clauses: does none fail under any choice?
pub fn is_model(draft: &Draft, case: &[u8]) -> bool {
    let tables = Tables::new(draft, case);
    draft.clauses.iter().all(|clause| {
        let letters = letters(clause);
        let mut all = (0..choices(&letters, tables.size)).map(|number| choice(&letters, tables.size, number));
        !all.any(|choice| tables.fails(clause, &choice))
    })
}

/// The models of the draft at this size: every case is tried, by truth alone.
pub fn models(draft: &Draft, size: usize) -> BTreeSet<Vec<u8>> {
    let values = cell_values(draft, size);
    let count: usize = values.iter().map(|values| values.len()).product();
    let case = |mut number: usize| {
        let mut cells = values.iter().map(|values| {
            let value = values.start + number % values.len();
            number /= values.len();
            value.to_string()
        });
        let mut text = format!("case=1\nsize={size}\n");
        for symbol in draft.symbols() {
            let row: Vec<String> = cells.by_ref().take(size.pow(symbol.arity as u32)).collect();
            text += &format!("{}={}\n", symbol.name, row.join(" "));
        }
        text.into_bytes()
    };
    (0..count).map(case).filter(|case| is_model(draft, case)).collect()
}

/// The values that each cell of a case may have, in order.
pub fn cell_values(draft: &Draft, size: usize) -> Vec<Range<usize>> {
    let table = |(symbol, values): (&Symbol, Range<usize>)| vec![values; size.pow(symbol.arity as u32)];
    let functions = draft.functions.iter().map(|f| (f, 1..size + 1));
    let predicates = draft.predicates.iter().map(|p| (p, 0..2));
    functions.chain(predicates).flat_map(table).collect()
}

/// The letters of a clause in order of first appearance.
pub fn letters(clause: &[String]) -> Vec<char> {
    let mut letters = Vec::new();
    for word in clause.iter().filter(|word| word.chars().all(char::is_uppercase)) {
        let letter = word.chars().next().expect("a word is not empty");
        if !letters.contains(&letter) {
            letters.push(letter);
        }
    }
    letters
}

/// How many choices there are for the letters.
pub fn choices(letters: &[char], size: usize) -> usize {
    size.pow(letters.len() as u32)
}

/// The choice with this number, from 0: its values are the number's digits, the last letter's the lowest.
pub fn choice(letters: &[char], size: usize, number: usize) -> Vec<(char, u8)> {
    let place = |i: usize| size.pow((letters.len() - 1 - i) as u32);
    let value = |i: usize| 1 + (number / place(i) % size) as u8;
    letters
        .iter()
        .enumerate()
        .map(|(i, &letter)| (letter, value(i)))
        .collect()
}
