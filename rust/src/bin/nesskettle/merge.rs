//! `nesskettle merge`: two sheets made one, or what is in the way.

use crate::report::{Failure, File};
use crate::symbols::declared;
use crate::{counted, print};
use nesskettle::{MergeRefusal, Reason, Refusal, WhichSheet};

/// No sheet has more bytes, so that no merge asks for more.
const MOST_BYTES: usize = 16_384;
/// Functions, and predicates.
const MOST_SYMBOLS: usize = 12;
const MOST_CLAUSES: usize = 64;

pub fn merge(first: &File, second: &File) -> Result<u8, Failure> {
    let mut output = vec![0; MOST_BYTES];
    let merged = nesskettle::merge(&first.bytes, &second.bytes, &mut output);
    let length = merged.map_err(|r| refused(r, first, second))?;
    print(&output[..length])
}

fn refused(merge: MergeRefusal, first: &File, second: &File) -> Failure {
    let refusal = merge.refusal;
    match (merge.sheet, refusal.reason) {
        (Some(WhichSheet::First), _) => sheet_refused(refusal, "first", first),
        (Some(WhichSheet::Second), _) => sheet_refused(refusal, "second", second),
        (None, Reason::NamesDiffer) => names_differ(refusal, first, second),
        (None, _) => first.refused(refusal).with(&together(first, second)),
    }
}

/// The file's line, and which of the two it is.
fn sheet_refused(refusal: Refusal, which: &str, file: &File) -> Failure {
    let name = &file.name;
    file.refused(refusal).with(&format!("{name} is the {which} sheet"))
}

/// Each line of the second sheet that declares a name otherwise than the first does, below the first's.
fn names_differ(refusal: Refusal, first: &File, second: &File) -> Failure {
    let (ours, theirs) = (declarations(first), declarations(second));
    let pairs = theirs.iter().flat_map(|their| ours.iter().map(move |our| (our, their)));
    let differ = pairs.filter(|(our, their)| our.name == their.name && our.line != their.line);
    differ.fold(first.refused(refusal), |failure, (our, their)| {
        failure.with(&our.shown(first)).with(&their.shown(second))
    })
}

/// A line that declares a symbol.
struct Declaration {
    number: usize,
    line: String,
    name: String,
}

impl Declaration {
    fn shown(&self, file: &File) -> String {
        format!("{}:{}: {}", file.name, self.number, self.line)
    }
}

fn declarations(sheet: &File) -> Vec<Declaration> {
    let text = String::from_utf8_lossy(&sheet.bytes);
    let declaration = |(number, line): (usize, &str)| {
        let name = declared(line)?.name.to_string();
        let line = line.to_string();
        Some(Declaration { number, line, name })
    };
    (1..).zip(text.lines()).filter_map(declaration).collect()
}

/// How much the merged sheet would have.
fn together(first: &File, second: &File) -> String {
    let count = |key: &str| {
        let of_first = lines(first, key);
        let of_second = lines(second, key);
        let new = of_second.iter().filter(|line| !of_first.contains(line));
        of_first.len() + new.count()
    };
    let (functions, predicates, clauses) = (count("fun="), count("pred="), count("clause="));
    let within = functions <= MOST_SYMBOLS && predicates <= MOST_SYMBOLS && clauses <= MOST_CLAUSES;
    let bytes = if within { ", which take too many bytes" } else { "" };
    format!(
        "together they have {}, {} and {}{bytes}",
        counted(functions as u64, "function"),
        counted(predicates as u64, "predicate"),
        counted(clauses as u64, "clause")
    )
}

/// The sheet's lines with this key.
fn lines<'a>(sheet: &'a File, key: &str) -> Vec<&'a [u8]> {
    let lines = sheet.bytes.split(|&b| b == b'\n');
    lines.filter(|line| line.starts_with(key.as_bytes())).collect()
}
