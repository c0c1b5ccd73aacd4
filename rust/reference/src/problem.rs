//! A sheet, read line by line, and its refusals 1 to 7.

use crate::flattening::{self, FlatClause};
use crate::lines::{Line, Lines};
use crate::naming::Helpers;
use crate::syntax::{self, Clause, Symbol, Word};
use crate::{refused, Reason, Refusal, Terms};

pub const MAX_BYTES: usize = 16_384;
pub const MAX_SYMBOLS: usize = 12;
pub const MAX_CLAUSES: usize = 64;
pub const MAX_ARITY: usize = 3;
const MAX_NAME: usize = 12;
pub const MAX_WORDS: usize = 64;
pub const MAX_LITERALS: usize = 16;
/// After flattening.
pub const MAX_VARIABLES: usize = 10;
/// Helper constants where terms are named.
pub const MAX_HELPERS: usize = 32;
pub const LETTERS: std::ops::RangeInclusive<u8> = b'A'..=b'H';

/// An accepted sheet.
pub struct Problem {
    /// The declared ones. Where a clause has a function behind them, it is a helper constant.
    pub functions: Vec<Symbol>,
    pub predicates: Vec<Symbol>,
    /// How many helper constants there are; none where terms stay as written.
    pub helpers: usize,
    /// As written; or the helpers' own, then the sheet's with the names put in.
    pub clauses: Vec<Clause>,
    /// After steps 1 and 2.
    pub flat: Vec<FlatClause>,
}

impl Problem {
    pub fn read(sheet: &[u8], terms: Terms) -> Result<Problem, Refusal> {
        if sheet.len() > MAX_BYTES {
            return Err(refused(Reason::SheetTooLong));
        }
        let mut problem = Problem {
            functions: Vec::new(),
            predicates: Vec::new(),
            helpers: 0,
            clauses: Vec::new(),
            flat: Vec::new(),
        };
        problem.read_lines(Lines::new(sheet, Reason::Layout), terms)?;
        if problem.helpers > MAX_HELPERS {
            return Err(refused(Reason::TooManyHelpers));
        }
        Ok(problem)
    }

    /// Of the declared functions, then of the helpers.
    pub fn function_arities(&self) -> impl Iterator<Item = usize> + '_ {
        let declared = self.functions.iter().map(|f| f.arity);
        declared.chain(std::iter::repeat_n(0, self.helpers))
    }

    fn read_lines(&mut self, mut lines: Lines, terms: Terms) -> Result<(), Refusal> {
        let mut first = lines.next();
        first.bytes(b"sheet=1")?;
        first.end()?;
        for _ in 0..count(lines.next(), b"funs=", MAX_SYMBOLS)? {
            let symbol = self.symbol(lines.next(), b"fun=")?;
            self.functions.push(symbol);
        }
        for _ in 0..count(lines.next(), b"preds=", MAX_SYMBOLS)? {
            let symbol = self.symbol(lines.next(), b"pred=")?;
            self.predicates.push(symbol);
        }
        let mut helpers = Helpers::new(self.functions.len());
        for _ in 0..count(lines.next(), b"clauses=", MAX_CLAUSES)? {
            let (line, key) = (lines.next(), b"clause=");
            match terms {
                Terms::AsWritten => self.read_clause(line, key)?,
                Terms::Named => self.read_named(line, key, &mut helpers)?,
            }
        }
        lines.end()
    }

    /// `name/arity` after the key: the last two bytes first, then the arity, then the name.
    fn symbol(&self, mut line: Line, key: &[u8]) -> Result<Symbol, Refusal> {
        line.bytes(key)?;
        let (name, arity) = match line.rest()? {
            [name @ .., b'/', digit @ b'0'..=b'9'] => (name, (digit - b'0') as usize),
            // with `/0` after it, whatever it is, it would be as laid out
            _ => return Err(line.misplaced()),
        };
        if arity > MAX_ARITY {
            return Err(line.refused(Reason::OverLimit, key.len() + name.len() + 1));
        }
        let declared = self.functions.iter().chain(&self.predicates);
        if !well_formed(name) || declared.into_iter().any(|s| s.name == name) {
            return Err(line.refused(Reason::BadName, key.len()));
        }
        Ok(Symbol {
            name: name.to_vec(),
            arity,
        })
    }

    /// The clause after the key as it is written. A fault of its limits is told at the word that is over them, or at the
    /// line's start where only the variables are.
    fn read_clause(&mut self, mut line: Line, key: &[u8]) -> Result<(), Refusal> {
        let (words, places) = self.words(&mut line, key)?;
        let (clause, flat) = within_limits(&words).map_err(|over| {
            let before = over.map_or(0, |word| places[word]);
            line.refused(Reason::ClauseTooLarge, before)
        })?;
        self.clauses.push(clause);
        self.flat.push(flat);
        Ok(())
    }

    /// The clause after the key with names for its fixed terms, and the own clauses of the helpers that are new with it, which
    /// stand in front of the sheet's. Limits are those of both, and a fault of them is told at the line's start.
    fn read_named(&mut self, mut line: Line, key: &[u8], helpers: &mut Helpers) -> Result<(), Refusal> {
        let (words, _) = self.words(&mut line, key)?;
        let too_large = |_| line.refused(Reason::ClauseTooLarge, 0);
        let (clause, flat) = within_limits(&helpers.shorten(&words)).map_err(too_large)?;
        self.clauses.push(clause);
        self.flat.push(flat);
        for helper in self.helpers..helpers.count() {
            let (clause, flat) = within_limits(&helpers.own_clause(helper)).map_err(too_large)?;
            self.clauses.insert(helper, clause);
            self.flat.insert(helper, flat);
        }
        self.helpers = helpers.count();
        Ok(())
    }

    /// The words after the key, which make up a clause, each with how many bytes of the line stand before it.
    fn words(&self, line: &mut Line, key: &[u8]) -> Result<(Vec<Word>, Vec<usize>), Refusal> {
        line.bytes(key)?;
        let text = line.rest()?;
        let (mut words, mut places) = (Vec::new(), Vec::new());
        for (place, piece) in pieces(text) {
            places.push(key.len() + place);
            let word = self.word(piece);
            words.push(word.ok_or_else(|| line.refused(Reason::UnknownWord, key.len() + place))?);
        }
        if let Some(word) = syntax::first_misplaced(&words) {
            let before = places.get(word).copied().unwrap_or(key.len() + text.len());
            return Err(line.refused(Reason::NotAClause, before));
        }
        Ok((words, places))
    }

    fn word(&self, word: &[u8]) -> Option<Word> {
        match word {
            b"+" => return Some(Word::Plus),
            b"-" => return Some(Word::Minus),
            b"=" => return Some(Word::Equals),
            [letter] if LETTERS.contains(letter) => return Some(Word::Variable((letter - LETTERS.start()) as usize)),
            _ => {}
        }
        if let Some(index) = self.functions.iter().position(|s| s.name == word) {
            let arity = self.functions[index].arity;
            return Some(Word::Function { index, arity });
        }
        let index = self.predicates.iter().position(|s| s.name == word)?;
        let arity = self.predicates[index].arity;
        Some(Word::Predicate { index, arity })
    }
}

/// The count after the key: one or two digits without leading zero, at most the limit.
fn count(mut line: Line, key: &[u8], limit: usize) -> Result<usize, Refusal> {
    line.bytes(key)?;
    let first = line.byte(b'0'..=b'9')?;
    let second = match first {
        b'0' => None,
        _ => line.byte_if_any(b'0'..=b'9'),
    };
    line.end()?;
    let digit = |b: u8| (b - b'0') as usize;
    let count = second.map_or(digit(first), |second| 10 * digit(first) + digit(second));
    if count > limit {
        return Err(line.refused(Reason::OverLimit, key.len()));
    }
    Ok(count)
}

/// What single spaces part, each piece with its place; nothing has no pieces.
fn pieces(text: &[u8]) -> Vec<(usize, &[u8])> {
    if text.is_empty() {
        return Vec::new();
    }
    let placed = |next: &mut usize, piece| {
        let place = *next;
        *next += <[u8]>::len(piece) + 1;
        Some((place, piece))
    };
    text.split(|&b| b == b' ').scan(0, placed).collect()
}

/// The clause that the words make up, and after steps 1 and 2; or the first word over a limit, nothing where only the
/// variables are.
fn within_limits(words: &[Word]) -> Result<(Clause, FlatClause), Option<usize>> {
    if let Some(word) = first_over_limits(words) {
        return Err(Some(word));
    }
    let clause = syntax::clause(words);
    let flat = flattening::flatten(&clause);
    if flat.variables > MAX_VARIABLES {
        return Err(None);
    }
    Ok((clause, flat))
}

/// The 65th word or the 17th sign, whichever comes first.
fn first_over_limits(words: &[Word]) -> Option<usize> {
    let signs = (0..words.len()).filter(|&i| matches!(words[i], Word::Plus | Word::Minus));
    let over = (MAX_WORDS..words.len()).take(1).chain(signs.skip(MAX_LITERALS).take(1));
    over.min()
}

/// 1 to 12 bytes: a lower-case letter, then lower-case letters, digits and underscores.
pub fn well_formed(name: &[u8]) -> bool {
    let follows = |b: &u8| b.is_ascii_lowercase() || b.is_ascii_digit() || *b == b'_';
    match name {
        [first, rest @ ..] => name.len() <= MAX_NAME && first.is_ascii_lowercase() && rest.iter().all(follows),
        [] => false,
    }
}
