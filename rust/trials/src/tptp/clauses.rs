//! The clauses of a draft as TPTP statements.

use super::Statements;
use crate::draft::Draft;
use crate::random::Random;

/// What may stand in the statements.
#[derive(Clone, Copy)]
pub struct Style {
    /// Digits as a clause's name and any lower word as a role; else only what outside readers know.
    pub any_name_and_role: bool,
    /// Now and then a symbol or a variable that is not the draft's.
    pub slips: bool,
}

pub const KNOWN: Style = Style {
    any_name_and_role: false,
    slips: false,
};
pub const ANY: Style = Style {
    any_name_and_role: true,
    slips: false,
};
pub const SLIPPING: Style = Style {
    any_name_and_role: true,
    slips: true,
};

const WORD_NAMES: [&str; 6] = ["a", "c1", "axiom", "cnf", "a_B9", "with_A_name_longer_than_12"];
const DIGIT_NAMES: [&str; 4] = ["0", "42", "007", "99999999999999999999"];
const KNOWN_ROLES: [&str; 5] = ["axiom", "hypothesis", "definition", "lemma", "negated_conjecture"];
const OTHER_ROLES: [&str; 6] = ["conjecture", "type", "cnf", "myRole", "x_9", "r"];
const VARIABLES: [&str; 12] = [
    "X",
    "Y",
    "Z",
    "A",
    "B",
    "H",
    "I",
    "X1",
    "Xx",
    "X_",
    "Foo_bar",
    "VARIABLES_HAVE_ANY_LENGTH",
];

/// The draft's clauses. A symbol that no clause has is lost.
pub fn statements(random: &mut Random, draft: &Draft, style: Style) -> Statements {
    let clauses = draft.clauses.iter();
    clauses
        .map(|words| {
            let clause = clause(random, draft, words, style);
            statement(random, &clause.join(" "), style)
        })
        .collect()
}

/// `cnf(name, role, clause).`, the clause now and then in parentheses. Blanks part the clause's tokens.
pub fn statement(random: &mut Random, clause: &str, style: Style) -> Vec<String> {
    let (name, role) = if style.any_name_and_role && random.once_in(2) {
        (*random.pick(&DIGIT_NAMES), *random.pick(&OTHER_ROLES))
    } else {
        (*random.pick(&WORD_NAMES), *random.pick(&KNOWN_ROLES))
    };
    let (open, close) = if random.once_in(4) { ("( ", " )") } else { ("", "") };
    let statement = format!("cnf ( {name} , {role} , {open}{clause}{close} ) .");
    statement.split(' ').map(str::to_string).collect()
}

fn clause(random: &mut Random, draft: &Draft, words: &[String], style: Style) -> Vec<String> {
    let mut writer = Writer {
        draft,
        words,
        slips: style.slips,
        first_variable: random.below(VARIABLES.len()),
        tokens: Vec::new(),
    };
    while !writer.words.is_empty() {
        if random.once_in(12) {
            writer.put("$false");
            writer.put("|");
        }
        writer.literal(random);
        writer.put("|");
    }
    if writer.tokens.is_empty() || random.once_in(12) {
        writer.put("$false");
    } else {
        writer.tokens.pop();
    }
    writer.tokens
}

/// Turns the words of a clause into tokens.
struct Writer<'a> {
    draft: &'a Draft,
    words: &'a [String],
    slips: bool,
    /// Which variable stands for the letter A; the letters after it follow.
    first_variable: usize,
    tokens: Vec<String>,
}

impl Writer<'_> {
    fn put(&mut self, token: &str) {
        self.tokens.push(token.to_string());
    }

    fn next(&mut self) -> String {
        let (first, rest) = self.words.split_first().expect("a word is left");
        self.words = rest;
        first.clone()
    }

    fn literal(&mut self, random: &mut Random) {
        let negative = self.next() == "-";
        let is_equality = self.words[0] == "=";
        let unequal = is_equality && negative && random.once_in(2);
        if negative && !unequal {
            self.put("~");
        }
        if is_equality {
            self.next();
            self.term(random);
            self.put(if unequal { "!=" } else { "=" });
        }
        self.term(random);
    }

    /// A predicate or a function with its arguments, or a variable.
    fn term(&mut self, random: &mut Random) {
        let word = self.next();
        match self.draft.symbols().find(|s| s.name == word) {
            None => self.variable(random, &word),
            Some(symbol) => {
                let arity = symbol.arity;
                let slip = self.slips && random.once_in(25);
                let (name, more) = if slip {
                    self.slipped(random, word)
                } else {
                    (word, false)
                };
                self.tokens.push(name);
                self.arguments(random, arity, more);
            }
        }
    }

    fn arguments(&mut self, random: &mut Random, arity: usize, one_more: bool) {
        for i in 0..arity {
            self.put(if i == 0 { "(" } else { "," });
            self.term(random);
        }
        if one_more {
            self.put(if arity == 0 { "(" } else { "," });
            self.variable(random, "A");
        }
        if arity > 0 || one_more {
            self.put(")");
        }
    }

    fn variable(&mut self, random: &mut Random, letter: &str) {
        let number = (letter.as_bytes()[0] - b'A') as usize + self.first_variable;
        let name = VARIABLES[number % VARIABLES.len()];
        if self.slips && random.once_in(10) {
            let other = format!("{name}{}", random.below(4));
            return self.put(&other);
        }
        self.put(name);
    }

    /// Another name for a symbol, or the same with one argument more.
    fn slipped(&self, random: &mut Random, name: String) -> (String, bool) {
        match random.below(5) {
            0 => (name, true),
            1 => {
                let symbols: Vec<&str> = self.draft.symbols().map(|s| s.name.as_str()).collect();
                (random.pick(&symbols).to_string(), false)
            }
            2 => (name + "X", false),
            3 => (format!("{name:_<12}"), false),
            _ => (format!("{name:_<13}"), false),
        }
    }
}
