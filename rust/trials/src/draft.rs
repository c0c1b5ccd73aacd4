//! Generated sheets, mostly well-formed, and the cases and settings that belong to them.

use crate::random::Random;

/// A sheet as its parts, before it is written and perhaps damaged.
#[derive(Clone, Default)]
pub struct Draft {
    pub functions: Vec<Symbol>,
    pub predicates: Vec<Symbol>,
    /// The words of each clause.
    pub clauses: Vec<Vec<String>>,
}

#[derive(Clone)]
pub struct Symbol {
    pub name: String,
    pub arity: usize,
}

/// What a draft is like.
#[derive(Clone, Copy)]
pub struct Style {
    pub symbols: usize,
    pub arity: usize,
    pub clauses: usize,
    pub literals: usize,
    pub letters: usize,
    pub depth: usize,
}

/// Few symbols and short clauses: searched and judged quickly.
pub const SMALL: Style = Style {
    symbols: 3,
    arity: 2,
    clauses: 5,
    literals: 3,
    letters: 3,
    depth: 2,
};
/// Larger tables.
pub const BROAD: Style = Style {
    symbols: 5,
    arity: 3,
    clauses: 8,
    literals: 4,
    letters: 4,
    depth: 2,
};
/// Around every limit of a sheet.
pub const LIMITS: Style = Style {
    symbols: 13,
    arity: 3,
    clauses: 65,
    literals: 6,
    letters: 8,
    depth: 3,
};
/// Clauses around the limits of a clause.
pub const LONG_CLAUSES: Style = Style {
    symbols: 4,
    arity: 3,
    clauses: 3,
    literals: 17,
    letters: 8,
    depth: 3,
};

const KEYS: [&str; 12] = [
    "sheet", "funs", "fun", "preds", "pred", "clauses", "clause", "case", "size", "low", "high", "a",
];
/// How many functions a sheet can have, and how many predicates.
const MOST_SYMBOLS: usize = 12;
const LETTERS: [&str; 8] = ["A", "B", "C", "D", "E", "F", "G", "H"];

impl Draft {
    pub fn random(random: &mut Random, style: Style) -> Draft {
        let functions = random.between(0, style.symbols);
        let mut draft = Draft::default();
        draft.add_functions(random, style, functions);
        let predicates = random.between(0, style.symbols);
        draft.add_predicates(random, style, predicates);
        draft.add_clauses(random, style);
        draft
    }

    /// A draft with so many functions and predicates, and no clause.
    pub fn with_symbols(random: &mut Random, style: Style, functions: usize, predicates: usize) -> Draft {
        let mut draft = Draft::default();
        draft.add_functions(random, style, functions);
        draft.add_predicates(random, style, predicates);
        draft
    }

    fn add_functions(&mut self, random: &mut Random, style: Style, count: usize) {
        for _ in 0..count {
            let symbol = self.symbol(random, style);
            self.functions.push(symbol);
        }
    }

    fn add_predicates(&mut self, random: &mut Random, style: Style, count: usize) {
        for _ in 0..count {
            let symbol = self.symbol(random, style);
            self.predicates.push(symbol);
        }
    }

    /// A draft whose tables have exactly so many cells at a size.
    pub fn with_cells(random: &mut Random, style: Style, size: usize, cells: usize) -> Draft {
        let mut draft = Draft::default();
        let mut left = cells;
        while left > 0 {
            let arity = random.between(0, style.arity);
            let kind = random.below(2);
            let full = [draft.functions.len(), draft.predicates.len()][kind] == MOST_SYMBOLS;
            if full {
                return Draft::with_cells(random, style, size, cells);
            }
            let table = size.pow(arity as u32);
            if table <= left {
                left -= table;
                let symbol = draft.named(random, arity);
                [&mut draft.functions, &mut draft.predicates][kind].push(symbol);
            }
        }
        draft.add_clauses(random, style);
        draft
    }

    pub fn add_clauses(&mut self, random: &mut Random, style: Style) {
        for _ in 0..random.between(0, style.clauses) {
            self.clauses.push(self.clause(random, style));
        }
    }

    /// A draft of one clause with about 64 words, 16 literals and 10 variables.
    pub fn around_clause_limits(random: &mut Random) -> Draft {
        let symbol = |(name, arity): (&str, usize)| Symbol {
            name: name.to_string(),
            arity,
        };
        let mut draft = Draft {
            functions: [("a", 0), ("b", 0), ("f", 1), ("g", 2)].map(symbol).to_vec(),
            predicates: [("p", 0), ("q", 1), ("r", 2), ("s", 3)].map(symbol).to_vec(),
            clauses: Vec::new(),
        };
        let literals: &[&str] = match random.below(3) {
            // four words a literal, few variables: words and literals meet their limits together
            0 => &[
                "+ r A B",
                "- r B A",
                "- q f A",
                "+ s A B B",
                "- = A B",
                "+ q A",
                "+ r C C",
            ],
            // some letters and some terms to lift
            1 => &[
                "+ q f A",
                "- q f B",
                "+ r C D",
                "- = f C g A B",
                "+ q g E a",
                "- r F b",
                "+ = G H",
                "- = A H",
            ],
            // equal terms and renamed letters
            _ => &[
                "- = A B",
                "+ q f f A",
                "- r f A f B",
                "+ = g A A g B B",
                "- s f C f D a",
                "+ = a f a",
                "- = C D",
            ],
        };
        let mut words = Vec::new();
        for _ in 0..random.between(literals.len(), 17) {
            words.extend(random.pick(literals).split(' ').map(str::to_string));
        }
        draft.clauses.push(words);
        draft
    }

    /// As many symbols as a sheet can have, all with three arguments, and no clause: no case has more cells than its cases.
    pub fn most_cells() -> Draft {
        let symbols = |letter: char| {
            let symbol = |i: usize| Symbol {
                name: format!("{letter}{i}"),
                arity: 3,
            };
            (0..MOST_SYMBOLS).map(symbol).collect()
        };
        Draft {
            functions: symbols('f'),
            predicates: symbols('p'),
            clauses: Vec::new(),
        }
    }

    fn symbol(&self, random: &mut Random, style: Style) -> Symbol {
        let arity = random.between(0, style.arity).min(random.between(0, style.arity + 1));
        self.named(random, arity)
    }

    /// A symbol with a name that is not taken.
    fn named(&self, random: &mut Random, arity: usize) -> Symbol {
        loop {
            let name = name(random);
            if self.symbols().all(|s| s.name != name) {
                return Symbol { name, arity };
            }
        }
    }

    /// Functions, then predicates.
    pub fn symbols(&self) -> impl Iterator<Item = &Symbol> {
        self.functions.iter().chain(&self.predicates)
    }

    fn clause(&self, random: &mut Random, style: Style) -> Vec<String> {
        let mut words = Vec::new();
        let count = match random.below(12) {
            0 => 0,
            1..=4 if !self.functions.is_empty() => return self.inequality(random, style),
            _ => random.between(1, style.literals),
        };
        for _ in 0..count {
            let letters = random.between(1, style.letters);
            words.push(if random.once_in(2) { "+" } else { "-" }.to_string());
            if self.predicates.is_empty() || random.once_in(2) {
                words.push("=".to_string());
                self.terms(random, 2, letters, style.depth, &mut words);
            } else {
                let predicate = random.pick(&self.predicates);
                words.push(predicate.name.clone());
                self.terms(random, predicate.arity, letters, style.depth, &mut words);
            }
        }
        words
    }

    /// Two function terms over one letter are not equal: there is no model of size 1, but mostly one of another.
    fn inequality(&self, random: &mut Random, style: Style) -> Vec<String> {
        let mut words = vec!["-".to_string(), "=".to_string()];
        self.application(random, 1, style.depth, &mut words);
        self.application(random, 1, style.depth, &mut words);
        words
    }

    fn terms(&self, random: &mut Random, count: usize, letters: usize, depth: usize, words: &mut Vec<String>) {
        for _ in 0..count {
            if depth == 0 || self.functions.is_empty() || random.once_in(2) {
                words.push(LETTERS[random.below(letters)].to_string());
            } else {
                self.application(random, letters, depth, words);
            }
        }
    }

    fn application(&self, random: &mut Random, letters: usize, depth: usize, words: &mut Vec<String>) {
        let function = random.pick(&self.functions);
        words.push(function.name.clone());
        self.terms(random, function.arity, letters, depth - 1, words);
    }

    /// The sheet's bytes.
    pub fn sheet(&self) -> Vec<u8> {
        let mut text = format!("sheet=1\nfuns={}\n", self.functions.len());
        for f in &self.functions {
            text += &format!("fun={}/{}\n", f.name, f.arity);
        }
        text += &format!("preds={}\n", self.predicates.len());
        for p in &self.predicates {
            text += &format!("pred={}/{}\n", p.name, p.arity);
        }
        text += &format!("clauses={}\n", self.clauses.len());
        for words in &self.clauses {
            text += &format!("clause={}\n", words.join(" "));
        }
        text.into_bytes()
    }

    /// The draft of an accepted sheet.
    pub fn of_sheet(sheet: &[u8]) -> Draft {
        let text = String::from_utf8_lossy(sheet);
        let values = |key: &str| -> Vec<String> {
            let values = text
                .lines()
                .filter_map(|line| line.split_once('=').filter(|(k, _)| *k == key));
            values.map(|(_, value)| value.to_string()).collect()
        };
        let symbols = |key: &str| {
            let symbol = |value: &String| {
                let (name, arity) = value.split_once('/').expect("a symbol has an arity");
                Symbol {
                    name: name.to_string(),
                    arity: arity.parse().expect("an arity is a digit"),
                }
            };
            values(key).iter().map(symbol).collect()
        };
        Draft {
            functions: symbols("fun"),
            predicates: symbols("pred"),
            clauses: values("clause").iter().map(|clause| words(clause)).collect(),
        }
    }

    /// The draft with its symbols in order of first appearance in its clauses, those that no clause has left out, and
    /// with the letters of each clause A, B, .. in that order.
    pub fn in_order_of_appearance(&self) -> Draft {
        let appearing = |symbols: &[Symbol]| {
            let mut seen: Vec<Symbol> = Vec::new();
            for word in self.clauses.iter().flatten() {
                let symbol = symbols.iter().find(|s| s.name == *word);
                seen.extend(symbol.filter(|s| seen.iter().all(|t| t.name != s.name)).cloned());
            }
            seen
        };
        Draft {
            functions: appearing(&self.functions),
            predicates: appearing(&self.predicates),
            clauses: self.clauses.iter().map(|words| relettered(words)).collect(),
        }
    }

    /// The bytes of a random case.
    pub fn case(&self, random: &mut Random, size: usize) -> Vec<u8> {
        let mut text = format!("case=1\nsize={size}\n");
        let functions = self.functions.iter().map(|f| (f, 1, size));
        let predicates = self.predicates.iter().map(|p| (p, 0, 1));
        for (symbol, least, most) in functions.chain(predicates) {
            let cells = size.pow(symbol.arity as u32);
            let values: Vec<String> = (0..cells).map(|_| random.between(least, most).to_string()).collect();
            text += &format!("{}={}\n", symbol.name, values.join(" "));
        }
        text.into_bytes()
    }

    /// How many propositional variables its symbols have at a size.
    pub fn variables(&self, size: usize) -> usize {
        let functions = self.functions.iter().map(|f| size.pow(f.arity as u32 + 1));
        let predicates = self.predicates.iter().map(|p| size.pow(p.arity as u32));
        functions.chain(predicates).sum()
    }

    /// The bytes of a random setting in which every function cell has one result.
    pub fn setting(&self, random: &mut Random, size: usize) -> Vec<u8> {
        let mut setting = Vec::new();
        for function in &self.functions {
            for _ in 0..size.pow(function.arity as u32) {
                let result = random.below(size);
                setting.extend((0..size).map(|d| (d == result) as u8));
            }
        }
        for predicate in &self.predicates {
            setting.extend((0..size.pow(predicate.arity as u32)).map(|_| random.below(2) as u8));
        }
        setting
    }
}

/// What spaces part; nothing has no words.
fn words(clause: &str) -> Vec<String> {
    clause.split_whitespace().map(str::to_string).collect()
}

/// The words with the letters A, B, .. in order of first appearance.
fn relettered(words: &[String]) -> Vec<String> {
    let is_letter = |word: &String| LETTERS.contains(&word.as_str());
    let mut seen: Vec<&String> = Vec::new();
    for word in words.iter().filter(|word| is_letter(word)) {
        if !seen.contains(&word) {
            seen.push(word);
        }
    }
    let place = |word: &String| seen.iter().position(|s| *s == word);
    let words = words.iter();
    words
        .map(|word| place(word).map_or(word.clone(), |i| LETTERS[i].to_string()))
        .collect()
}

/// A well-formed name, sometimes that of a key, sometimes as long as can be.
fn name(random: &mut Random) -> String {
    if random.once_in(6) {
        return random.pick(&KEYS).to_string();
    }
    let length = if random.once_in(8) { 12 } else { random.between(1, 4) };
    let first = b"abcdefghijklmnopqrstuvwxyz";
    let follows = b"abcdefghijklmnopqrstuvwxyz0123456789_";
    let mut name = vec![*random.pick(first)];
    name.extend((1..length).map(|_| *random.pick(follows)));
    String::from_utf8(name).expect("letters are text")
}

/// A sheet of nearly or exactly as many bytes as a sheet may have, one line of it very long.
pub fn long_sheet(random: &mut Random) -> Vec<u8> {
    let mut sheet = b"sheet=1\nfuns=1\nfun=f/1\npreds=1\npred=p/0\nclauses=2\nclause=+ p\nclause=".to_vec();
    let length = 16_384 + random.below(5) - 3;
    let word = *random.pick(&["+ p ", "- p + p ", "+ ", "f ", "+ = f f A f A ", "x ", " "]);
    while sheet.len() < length {
        sheet.extend_from_slice(word.as_bytes());
    }
    sheet.truncate(length - 1);
    let last = if random.once_in(4) {
        *random.pick(b"pA +x")
    } else {
        b'\n'
    };
    sheet.push(last);
    sheet
}
