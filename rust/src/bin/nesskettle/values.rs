//! The values of terms and atoms in a case, each told by the library.
//!
//! A question is a small sheet of one clause and a case of it: the symbol that is asked about has its table from the case,
//! and constants stand for its arguments. No question comes near a limit of a sheet.

use crate::symbols::{symbols, Symbol};

/// Names of the constants that stand for arguments.
const ARGUMENTS: [&str; 3] = ["x", "y", "z"];

/// The tables of a case.
pub struct Values<'a> {
    size: usize,
    symbols: Vec<Symbol<'a>>,
}

impl<'a> Values<'a> {
    pub fn new(sheet: &'a str, case: &'a str) -> Self {
        let (size, symbols) = symbols(sheet, case);
        Values { size, symbols }
    }

    /// How many arguments the symbol, or =, has.
    pub fn arity(&self, name: &str) -> usize {
        match name {
            "=" => 2,
            _ => self.symbol(name).arity,
        }
    }

    /// The value of a function for these arguments.
    pub fn function(&self, name: &str, arguments: &[u8]) -> u8 {
        let function = renamed(self.symbol(name), "f");
        let functions = [constants(arguments), vec![function]].concat();
        // a clause that fails for one value of A alone
        let (sheet, case) = self.question(&functions, &[], &applied("- = f", arguments, " A"));
        let failure = nesskettle::explain(&sheet, &case).expect("the question is taken");
        failure.expect("a function has a value").choice()[0].1
    }

    /// Does the predicate, or =, hold for these arguments?
    pub fn holds(&self, name: &str, arguments: &[u8]) -> bool {
        let (predicates, atom) = match name {
            "=" => (vec![], "+ ="),
            _ => (vec![renamed(self.symbol(name), "p")], "+ p"),
        };
        let clause = applied(atom, arguments, "");
        let (sheet, case) = self.question(&constants(arguments), &predicates, &clause);
        nesskettle::judge(&sheet, &case).expect("the question is taken")
    }

    fn symbol(&self, name: &str) -> &Symbol<'a> {
        let symbol = self.symbols.iter().find(|s| s.name == name);
        symbol.expect("a clause has declared names only")
    }

    /// A sheet with this clause, and the case that belongs to it.
    fn question(&self, functions: &[Table], predicates: &[Table], clause: &str) -> (Vec<u8>, Vec<u8>) {
        let declared = |key: &str, tables: &[Table]| -> String {
            let line = |t: &Table| format!("{key}={}/{}\n", t.name, t.arity);
            format!("{key}s={}\n", tables.len()) + &tables.iter().map(line).collect::<String>()
        };
        let lines = |tables: &[Table]| -> String {
            let line = |t: &Table| format!("{}={}\n", t.name, t.entries);
            tables.iter().map(line).collect()
        };
        let (functions_declared, predicates_declared) = (declared("fun", functions), declared("pred", predicates));
        let sheet = format!("sheet=1\n{functions_declared}{predicates_declared}clauses=1\nclause={clause}\n");
        let case = format!("case=1\nsize={}\n{}{}", self.size, lines(functions), lines(predicates));
        (sheet.into_bytes(), case.into_bytes())
    }
}

/// A symbol of a question.
#[derive(Clone)]
struct Table {
    name: &'static str,
    arity: usize,
    entries: String,
}

/// The symbol's table under a name that no constant has.
fn renamed(symbol: &Symbol, name: &'static str) -> Table {
    Table {
        name,
        arity: symbol.arity,
        entries: symbol.entries.to_string(),
    }
}

/// Constants for the arguments.
fn constants(arguments: &[u8]) -> Vec<Table> {
    let constant = |(name, value): (&&'static str, &u8)| Table {
        name,
        arity: 0,
        entries: value.to_string(),
    };
    ARGUMENTS.iter().zip(arguments).map(constant).collect()
}

/// The words with the constants of the arguments between them.
fn applied(before: &str, arguments: &[u8], after: &str) -> String {
    let names: String = ARGUMENTS[..arguments.len()]
        .iter()
        .map(|name| format!(" {name}"))
        .collect();
    format!("{before}{names}{after}")
}
