//! Generated sheets to merge: they share symbols and clauses, disagree on a name now and then, or together come near a limit
//! of a sheet.

use crate::draft::{Draft, Style, Symbol, BROAD, LIMITS};
use crate::random::Random;

/// Counts around the limits of a sheet. Of the clauses some are the same, and drop out where a sheet is split.
const SYMBOLS: (usize, usize) = (11, 13);
const CLAUSES: (usize, usize) = (62, 69);

/// So many drafts, each with some of the same symbols and clauses, and some clauses of its own.
pub fn related(random: &mut Random, style: Style, count: usize) -> Vec<Draft> {
    let whole = Draft::random(random, style);
    (0..count).map(|_| part(random, &whole, style)).collect()
}

fn part(random: &mut Random, whole: &Draft, style: Style) -> Draft {
    let mut part = Draft {
        functions: some(random, &whole.functions),
        predicates: some(random, &whole.predicates),
        clauses: Vec::new(),
    };
    for clause in &whole.clauses {
        if part.declares(clause) && !random.once_in(3) {
            part.clauses.push(clause.clone());
        }
    }
    let own = Style {
        clauses: style.clauses / 3,
        ..style
    };
    part.add_clauses(random, own);
    if !part.clauses.is_empty() && random.once_in(3) {
        let again = random.pick(&part.clauses).clone();
        let at = random.between(0, part.clauses.len());
        part.clauses.insert(at, again);
    }
    part
}

/// About two thirds of the symbols, now and then in another order.
fn some(random: &mut Random, symbols: &[Symbol]) -> Vec<Symbol> {
    let mut taken: Vec<Symbol> = symbols.iter().filter(|_| !random.once_in(3)).cloned().collect();
    if taken.len() > 1 && random.once_in(3) {
        taken.rotate_left(1);
        let last = taken.len() - 1;
        taken.swap(0, random.between(0, last));
    }
    taken
}

/// The draft with another arity or kind of one of its symbols, and without the clauses that have it.
pub fn otherwise(random: &mut Random, draft: &Draft) -> Draft {
    let mut other = draft.clone();
    let count = draft.functions.len();
    let all = count + draft.predicates.len();
    if all == 0 {
        return other;
    }
    let at = random.below(all);
    let (from, to, at) = if at < count {
        (&mut other.functions, &mut other.predicates, at)
    } else {
        (&mut other.predicates, &mut other.functions, at - count)
    };
    let name = from[at].name.clone();
    if random.once_in(2) {
        from[at].arity = (from[at].arity + random.between(1, 3)) % 4;
    } else {
        let symbol = from.remove(at);
        let place = random.between(0, to.len());
        to.insert(place, symbol);
    }
    other.clauses.retain(|clause| !clause.contains(&name));
    other
}

/// A sheet in two parts: what the merged sheet lists, and the two that are merged.
pub struct Split {
    pub whole: Draft,
    pub first: Draft,
    pub second: Draft,
}

/// A draft cut in two. The second part also has some of what the first has, so that only the rest of it is new.
pub fn split(random: &mut Random, mut whole: Draft) -> Split {
    let functions = random.between(0, whole.functions.len());
    let predicates = random.between(0, whole.predicates.len());
    let mut first = Draft {
        functions: whole.functions[..functions].to_vec(),
        predicates: whole.predicates[..predicates].to_vec(),
        clauses: Vec::new(),
    };
    // what the first part can have comes first in the whole too
    let (mut clauses, rest): (Vec<_>, Vec<_>) = whole.clauses.into_iter().partition(|clause| first.declares(clause));
    let cut = random.between(0, clauses.len());
    first.clauses = clauses[..cut].to_vec();
    let mut new: Vec<_> = clauses.split_off(cut).into_iter().chain(rest).collect();
    new.retain(|clause| !first.clauses.contains(clause));
    whole.clauses = [first.clauses.clone(), new.clone()].concat();
    let second = Draft {
        functions: mixed(random, &whole.functions[functions..], &first.functions),
        predicates: mixed(random, &whole.predicates[predicates..], &first.predicates),
        clauses: mixed(random, &new, &first.clauses),
    };
    let second = second.with_missing(&first);
    Split { whole, first, second }
}

/// The new entries in their order, and some of the known ones between them.
fn mixed<T: Clone>(random: &mut Random, new: &[T], known: &[T]) -> Vec<T> {
    let mut all = new.to_vec();
    for entry in known {
        if random.once_in(3) {
            let at = random.between(0, all.len());
            all.insert(at, entry.clone());
        }
    }
    all
}

/// A draft with about as many functions and predicates as a sheet may have, or as many clauses.
pub fn around_counts(random: &mut Random) -> Draft {
    let style = Style {
        literals: 2,
        letters: 3,
        depth: 1,
        ..LIMITS
    };
    let ((fewest, most), clauses) = if random.once_in(2) {
        (SYMBOLS, random.below(8))
    } else {
        ((1, 3), random.between(CLAUSES.0, CLAUSES.1))
    };
    let (functions, predicates) = (random.between(fewest, most), random.between(fewest, most));
    let mut draft = Draft::with_symbols(random, style, functions, predicates);
    while draft.clauses.len() < clauses {
        draft.add_clauses(random, style);
    }
    draft.clauses.truncate(clauses);
    draft
}

/// A draft with about as many bytes as a sheet may have.
pub fn around_bytes(random: &mut Random) -> Draft {
    let symbol = |name: &str, arity: usize| Symbol {
        name: name.to_string(),
        arity,
    };
    let mut draft = Draft {
        functions: vec![symbol("mnopqrstuvwx", 0), symbol("f", 1)],
        predicates: vec![symbol("abcdefghijkl", 3), symbol("zyxwvutsrqpo", 2), symbol("o", 0)],
        clauses: Vec::new(),
    };
    let literals = [
        "+ abcdefghijkl A B mnopqrstuvwx",
        "- abcdefghijkl mnopqrstuvwx mnopqrstuvwx C",
        "+ zyxwvutsrqpo mnopqrstuvwx B",
        "- zyxwvutsrqpo f A mnopqrstuvwx",
        "- abcdefghijkl C C mnopqrstuvwx",
        "+ = mnopqrstuvwx A",
    ];
    let length = 16_384 + random.below(9) - 4;
    while draft.sheet().len() + 300 < length {
        let clause: Vec<&str> = (0..random.between(7, 9)).map(|_| *random.pick(&literals)).collect();
        draft
            .clauses
            .push(clause.join(" ").split(' ').map(str::to_string).collect());
    }
    draft.padded(length)
}

impl Draft {
    /// Are all symbols of the clause declared?
    fn declares(&self, clause: &[String]) -> bool {
        let mut names = clause
            .iter()
            .filter(|word| word.starts_with(|c: char| c.is_ascii_lowercase()));
        names.all(|name| self.symbols().any(|s| s.name == *name))
    }

    /// With the symbols of the other draft that stand in its clauses and are not declared.
    fn with_missing(mut self, other: &Draft) -> Draft {
        let missing = |symbols: &[Symbol], draft: &Draft| -> Vec<Symbol> {
            let stands = |s: &&Symbol| draft.clauses.iter().any(|clause| clause.contains(&s.name));
            let is_missing = |s: &&Symbol| draft.symbols().all(|t| t.name != s.name);
            symbols.iter().filter(stands).filter(is_missing).cloned().collect()
        };
        let (functions, predicates) = (missing(&other.functions, &self), missing(&other.predicates, &self));
        self.functions.extend(functions);
        self.predicates.extend(predicates);
        self
    }

    /// With literals of four bytes more in its clauses, up to so many bytes.
    fn padded(mut self, length: usize) -> Draft {
        let mut missing = length.saturating_sub(self.sheet().len()) / 4;
        for clause in &mut self.clauses {
            for _ in 0..missing.min(7) {
                clause.extend(["+", "o"].map(str::to_string));
                missing -= 1;
            }
        }
        self
    }
}

/// Two related drafts, which now and then disagree on a name.
pub fn pair(random: &mut Random, style: Style) -> (Draft, Draft) {
    let [first, second] = related(random, style, 2).try_into().unwrap_or_else(|_| unreachable!());
    match random.below(8) {
        0 => {
            let second = otherwise(random, &first);
            (first, second)
        }
        1 => {
            let first = otherwise(random, &second);
            (first, second)
        }
        // nothing in common but by chance
        2 => (first, Draft::random(random, BROAD)),
        _ => (first, second),
    }
}
