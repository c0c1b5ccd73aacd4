//! Two sheets made one: the first's symbols and clauses, then the second's that are new.

use crate::problem::{Problem, MAX_BYTES, MAX_CLAUSES, MAX_SYMBOLS};
use crate::syntax::Symbol;
use crate::{refused, sheet_of, MergeRefusal, Reason, Refusal, Terms, WhichSheet};

/// The merged sheet, or why there is none. Only the merged sheet's limits are looked at: the clauses were read with their own
/// sheet, and mean the same here.
pub fn merged(first: &[u8], second: &[u8]) -> Result<Vec<u8>, MergeRefusal> {
    let first = Parts::read(first, WhichSheet::First)?;
    let second = Parts::read(second, WhichSheet::Second)?;
    if first.disagrees(&second) {
        return Err(about_both(refused(Reason::NamesDiffer)));
    }
    let merged = first.with_new(&second);
    let sheet = merged.sheet();
    if merged.is_over_a_count() || sheet.len() > MAX_BYTES {
        return Err(about_both(refused(Reason::MergeTooLarge)));
    }
    Ok(sheet)
}

/// A refusal that is about the two sheets together.
pub fn about_both(refusal: Refusal) -> MergeRefusal {
    let sheet = None;
    MergeRefusal { refusal, sheet }
}

/// What a sheet lists, each entry as it stands after its key.
struct Parts {
    functions: Vec<String>,
    predicates: Vec<String>,
    clauses: Vec<String>,
}

impl Parts {
    fn read(sheet: &[u8], which: WhichSheet) -> Result<Parts, MergeRefusal> {
        let problem = Problem::read(sheet, Terms::AsWritten).map_err(|refusal| MergeRefusal {
            refusal,
            sheet: Some(which),
        })?;
        let text = std::str::from_utf8(sheet).expect("a sheet that is read is text");
        let clauses = text.lines().filter_map(|line| line.strip_prefix("clause="));
        Ok(Parts {
            functions: problem.functions.iter().map(declaration).collect(),
            predicates: problem.predicates.iter().map(declaration).collect(),
            clauses: clauses.map(str::to_string).collect(),
        })
    }

    /// Does a name stand in both with another kind or arity?
    fn disagrees(&self, other: &Parts) -> bool {
        let mut pairs = self.declared().flat_map(|s| other.declared().map(move |t| (s, t)));
        pairs.any(|(s, t)| name(s.1) == name(t.1) && s != t)
    }

    /// Each declaration with its kind.
    fn declared(&self) -> impl Iterator<Item = (Kind, &String)> {
        let functions = self.functions.iter().map(|f| (Kind::Function, f));
        functions.chain(self.predicates.iter().map(|p| (Kind::Predicate, p)))
    }

    fn with_new(&self, other: &Parts) -> Parts {
        Parts {
            functions: joined(&self.functions, &other.functions),
            predicates: joined(&self.predicates, &other.predicates),
            clauses: joined(&self.clauses, &other.clauses),
        }
    }

    fn is_over_a_count(&self) -> bool {
        self.functions.len() > MAX_SYMBOLS || self.predicates.len() > MAX_SYMBOLS || self.clauses.len() > MAX_CLAUSES
    }

    fn sheet(&self) -> Vec<u8> {
        sheet_of(&lent(&self.functions), &lent(&self.predicates), &lent(&self.clauses))
    }
}

#[derive(Clone, Copy, PartialEq, Eq)]
enum Kind {
    Function,
    Predicate,
}

fn declaration(symbol: &Symbol) -> String {
    format!("{}/{}", String::from_utf8_lossy(&symbol.name), symbol.arity)
}

fn name(declaration: &str) -> Option<&str> {
    declaration.split('/').next()
}

/// The first list, then what of the second the first does not have, repeats included.
fn joined(first: &[String], second: &[String]) -> Vec<String> {
    let new = second.iter().filter(|entry| !first.contains(entry));
    first.iter().chain(new).cloned().collect()
}

fn lent(entries: &[String]) -> Vec<&str> {
    entries.iter().map(String::as_str).collect()
}
