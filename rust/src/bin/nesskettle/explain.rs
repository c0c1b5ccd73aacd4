//! `nesskettle explain`: the first failure, and what the terms and literals of its clause come to.

use crate::report::{sheet_or_case_refused, Failure, File};
use crate::values::Values;
use crate::{print, NO};
use nesskettle::FirstFailure;

pub fn explain(sheet: &File, case: &File) -> Result<u8, Failure> {
    let explained = nesskettle::explain(&sheet.bytes, &case.bytes);
    match explained.map_err(|r| sheet_or_case_refused(r, sheet, case))? {
        None => print(b"answer=yes\n"),
        Some(failure) => {
            let text = answer(&failure) + "\n" + &clause(sheet, case, &failure);
            print(text.as_bytes())?;
            Ok(NO)
        }
    }
}

/// The lines that the program `explainer` prints.
fn answer(failure: &FirstFailure) -> String {
    let choice = failure.choice().iter();
    let values: String = choice.map(|(letter, value)| format!("{letter}={value}\n")).collect();
    format!("answer=no\nclause={}\n{values}", failure.clause)
}

/// The clause as written, and its literals.
fn clause(sheet: &File, case: &File, failure: &FirstFailure) -> String {
    let (sheet_text, case_text) = (
        String::from_utf8_lossy(&sheet.bytes),
        String::from_utf8_lossy(&case.bytes),
    );
    let lines = (1..).zip(sheet_text.lines());
    let mut clauses = lines.filter_map(|(number, line)| Some((number, line.strip_prefix("clause=")?)));
    let found = clauses.nth(failure.clause as usize - 1);
    let (number, written) = found.expect("the sheet has the clause");
    let mut words = Words {
        words: written.split_whitespace().collect(),
        taken: 0,
        choice: failure.choice(),
        values: &Values::new(&sheet_text, &case_text),
        terms: Vec::new(),
    };
    let mut text = format!("{}:{number}: clause={written}\n", sheet.name);
    if written.is_empty() {
        text += "  (no literal)\n";
    }
    while words.taken < words.words.len() {
        text += &words.literal();
    }
    text
}

/// The words of a clause, taken from left to right, with the values that its letters stand for.
struct Words<'a> {
    words: Vec<&'a str>,
    taken: usize,
    choice: &'a [(char, u8)],
    values: &'a Values<'a>,
    /// What the terms of a literal come to, inside out.
    terms: Vec<String>,
}

impl<'a> Words<'a> {
    fn next(&mut self) -> &'a str {
        self.taken += 1;
        self.words[self.taken - 1]
    }

    /// A literal, whether it is true and why, and below it its terms.
    fn literal(&mut self) -> String {
        self.terms.clear();
        let start = self.taken;
        let sign = self.next();
        let name = self.next();
        let arguments = self.arguments(name);
        let holds = self.values.holds(name, &arguments);
        let literal = self.words[start..self.taken].join(" ");
        let is_true = holds == (sign == "+");
        let atom = applied(name, &arguments);
        let why = if holds { "holds" } else { "does not hold" };
        let terms: String = self.terms.iter().map(|term| format!("      {term}\n")).collect();
        format!("  {literal}: {is_true}, {atom} {why}\n{terms}")
    }

    /// The values of the next terms, as many as the symbol takes.
    fn arguments(&mut self, name: &str) -> Vec<u8> {
        let count = self.values.arity(name);
        (0..count).map(|_| self.term()).collect()
    }

    /// The value of the next term. What functions in it come to is noted.
    fn term(&mut self) -> u8 {
        let start = self.taken;
        let word = self.next();
        if let Some((_, value)) = self.choice.iter().find(|(letter, _)| word == letter.to_string()) {
            return *value;
        }
        let arguments = self.arguments(word);
        let value = self.values.function(word, &arguments);
        let written = self.words[start..self.taken].join(" ");
        let note = match arguments.len() {
            0 => format!("{written} = {value}"),
            _ => format!("{written} = {} = {value}", applied(word, &arguments)),
        };
        if !self.terms.contains(&note) {
            self.terms.push(note);
        }
        value
    }
}

/// A symbol with its arguments after it.
fn applied(name: &str, arguments: &[u8]) -> String {
    let arguments: String = arguments.iter().map(|value| format!(" {value}")).collect();
    format!("{name}{arguments}")
}
