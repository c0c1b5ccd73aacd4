//! Stored inputs with their answers (`rust/data/vectors.txt`), run on any implementation.
//!
//! One vector a line: the operation, its inputs, `->`, its answer. Each field is `key=value`; a byte string stands in
//! double quotes, with `\n`, `\"`, `\\` and `\xHH` in it.

use crate::{FindOptions, Symmetry, Terms, WriteOptions};
use crate::{FirstFailure, MergeRefusal, Operations, Refusal, Search, SolverAnswer};
use std::collections::HashMap;

/// The stored vectors.
pub const TEXT: &str = include_str!("../../data/vectors.txt");

/// One stored vector.
pub struct Vector {
    pub operation: String,
    pub inputs: Fields,
    pub answer: Fields,
}

impl Vector {
    /// The name of the program whose standard input and output these are; nothing where they are a call's.
    pub fn program(&self) -> Option<&'static str> {
        match self.operation.as_str() {
            "program" => Some("finder"),
            "explainer" => Some("explainer"),
            _ => None,
        }
    }

    /// Terms as written where the field `named` is 0 or is not there.
    pub fn terms(&self) -> Terms {
        if self.is_on("named") {
            Terms::Named
        } else {
            Terms::AsWritten
        }
    }

    /// Kept where the field `symmetry` is 0 or is not there.
    pub fn symmetry(&self) -> Symmetry {
        if self.is_on("symmetry") {
            Symmetry::Reduced
        } else {
            Symmetry::Kept
        }
    }

    /// The largest of a search without the field `allowance`, 0 of other operations.
    pub fn allowance(&self) -> u64 {
        match self.operation.as_str() {
            _ if self.inputs.has("allowance") => self.inputs.number("allowance"),
            "find" => FindOptions::LARGEST_ALLOWANCE,
            _ => 0,
        }
    }

    fn is_on(&self, switch: &str) -> bool {
        self.inputs.has(switch) && self.inputs.number(switch) > 0
    }
}

/// Fields by key, numbers and byte strings alike as bytes.
pub struct Fields(HashMap<String, Vec<u8>>);

impl Fields {
    pub fn bytes(&self, key: &str) -> &[u8] {
        self.0.get(key).unwrap_or_else(|| panic!("no field {key}"))
    }

    pub fn number(&self, key: &str) -> u64 {
        let text = std::str::from_utf8(self.bytes(key)).expect("a number is text");
        text.parse().expect("a number")
    }

    pub fn has(&self, key: &str) -> bool {
        self.0.contains_key(key)
    }
}

/// All stored vectors in order.
pub fn stored() -> Vec<Vector> {
    TEXT.lines().map(vector).collect()
}

fn vector(line: &str) -> Vector {
    let (operation, rest) = line.split_once(' ').expect("an operation first");
    let mut rest = rest.as_bytes();
    let inputs = fields(&mut rest);
    rest = rest.strip_prefix(b"-> ").expect("an arrow before the answer");
    Vector {
        operation: operation.to_string(),
        inputs,
        answer: fields(&mut rest),
    }
}

/// Fields up to the arrow or the end.
fn fields(rest: &mut &[u8]) -> Fields {
    let mut fields = HashMap::new();
    while !rest.is_empty() && !rest.starts_with(b"->") {
        let equals = rest.iter().position(|&b| b == b'=').expect("a field has a key");
        let key = String::from_utf8(rest[..equals].to_vec()).expect("a key is text");
        *rest = &rest[equals + 1..];
        fields.insert(key, value(rest));
        *rest = rest.strip_prefix(b" ").unwrap_or(rest);
    }
    Fields(fields)
}

/// A quoted byte string or a bare word; `rest` then starts after it.
fn value(rest: &mut &[u8]) -> Vec<u8> {
    if let Some(quoted) = rest.strip_prefix(b"\"") {
        *rest = quoted;
        return quoted_bytes(rest);
    }
    let end = rest.iter().position(|&b| b == b' ').unwrap_or(rest.len());
    let (word, after) = rest.split_at(end);
    *rest = after;
    word.to_vec()
}

fn quoted_bytes(rest: &mut &[u8]) -> Vec<u8> {
    let mut bytes = Vec::new();
    loop {
        let (byte, length) = match rest {
            [b'"', ..] => {
                *rest = &rest[1..];
                return bytes;
            }
            [b'\\', b'n', ..] => (b'\n', 2),
            [b'\\', b'x', high, low, ..] => (16 * hex(*high) + hex(*low), 4),
            [b'\\', byte, ..] => (*byte, 2),
            [byte, ..] => (*byte, 1),
            [] => panic!("a string has no end"),
        };
        bytes.push(byte);
        *rest = &rest[length..];
    }
}

fn hex(digit: u8) -> u8 {
    (digit as char).to_digit(16).expect("a hexadecimal digit") as u8
}

/// Runs one vector of the operations; the difference in words if there is one.
pub fn run(operations: &Operations, vector: &Vector) -> Result<(), String> {
    let given = &vector.inputs;
    let sheet = if given.has("sheet") { given.bytes("sheet") } else { &[] };
    let mut out = patterned_bytes(if given.has("output") { given.number("output") } else { 0 });
    let mut work = patterned_numbers(if given.has("work") { given.number("work") } else { 0 });
    let (terms, symmetry) = (vector.terms(), vector.symmetry());
    let answered = match vector.operation.as_str() {
        "read" => (operations.read)(sheet).map(|c| {
            format!(
                "functions={} predicates={} clauses={}",
                c.functions, c.predicates, c.clauses
            )
        }),
        "judge" => (operations.judge)(sheet, given.bytes("case")).map(|yes| format!("judged={}", yes_no(yes))),
        "explain" => (operations.explain)(sheet, given.bytes("case")).map(explained),
        "write" => {
            let options = WriteOptions { terms, symmetry };
            (operations.write)(sheet, given.number("size"), options, &mut out).map(|n| format!("length={n}"))
        }
        "read-back" => {
            let (size, setting) = (given.number("size"), given.bytes("setting"));
            (operations.read_back)(sheet, size, terms, setting, &mut out).map(|n| format!("length={n}"))
        }
        "setting" => (operations.setting)(sheet, given.bytes("case"), &mut out).map(|n| format!("length={n}")),
        "find" => {
            let (low, high) = (given.number("low"), given.number("high"));
            let options = FindOptions {
                terms,
                symmetry,
                allowance: vector.allowance(),
            };
            (operations.find)(sheet, low, high, options, &mut work, &mut out)
                .map(|search| found(search, &vector.answer))
        }
        "find-plain" => (operations.find_plain)(sheet, given.number("low"), given.number("high"), &mut out)
            .map(|search| found(search, &vector.answer)),
        "from-tptp" => (operations.from_tptp)(given.bytes("text"), &mut out).map(|n| format!("length={n}")),
        "from-solver" => {
            (operations.from_solver)(sheet, given.number("size"), given.bytes("text"), &mut out).map(from_solver)
        }
        "renumber" => {
            let (case, list) = (given.bytes("case"), given.bytes("list"));
            (operations.renumber)(sheet, case, list, &mut out).map(|n| format!("length={n}"))
        }
        "least-form" => (operations.least_form)(sheet, given.bytes("case"), &mut out).map(|n| format!("length={n}")),
        "merge" => return run_merge(operations, vector),
        other => panic!("no operation {other}"),
    };
    let refused = answered.is_err();
    let answered = answered.unwrap_or_else(refusal);
    same("answer", &answered, &expected(&vector.answer))?;
    same_output(&out, &vector.answer)?;
    let left = if refused {
        patterned_numbers(work.len() as u64)
    } else {
        vec![0; work.len()]
    };
    same("work", &work, &left)
}

fn run_merge(operations: &Operations, vector: &Vector) -> Result<(), String> {
    let given = &vector.inputs;
    let mut out = patterned_bytes(given.number("output"));
    let merged = (operations.merge)(given.bytes("first"), given.bytes("second"), &mut out);
    let answered = merged.map_or_else(merge_refusal, |n| format!("length={n}"));
    same("answer", &answered, &expected(&vector.answer))?;
    same_output(&out, &vector.answer)
}

/// The answer's text stands at the output's front, and what follows it is as it was.
fn same_output(out: &[u8], answer: &Fields) -> Result<(), String> {
    let text = if answer.has("text") { answer.bytes("text") } else { &[] };
    let mut left = patterned_bytes(out.len() as u64);
    left[..text.len()].copy_from_slice(text);
    same("output", out, &left)
}

/// The answer's fields but for the text, in one line.
fn expected(answer: &Fields) -> String {
    let keys = [
        "refused",
        "line",
        "column",
        "needed",
        "sheet",
        "functions",
        "predicates",
        "clauses",
        "judged",
        "fits",
        "clause",
        "choice",
        "settled",
        "found",
        "stopped",
        "claimed",
        "length",
        "choices",
    ];
    let shown = keys.into_iter().filter(|key| answer.has(key));
    let shown = shown.map(|key| format!("{key}={}", String::from_utf8_lossy(answer.bytes(key))));
    shown.collect::<Vec<_>>().join(" ")
}

/// The choice as letters, each with its digit after it.
fn explained(failure: Option<FirstFailure>) -> String {
    let Some(failure) = failure else {
        return "fits=yes".to_string();
    };
    let choice = failure.choice().iter();
    let choice: String = choice.map(|(letter, value)| format!("{letter}{value}")).collect();
    format!("fits=no clause={} choice={choice}", failure.clause)
}

/// With the choices made where the stored answer has them.
fn found(search: Search, stored: &Fields) -> String {
    let told = match search {
        Search::Found { size, length, .. } => format!("found={size} length={length}"),
        Search::None { settled, .. } => format!("settled={}", yes_no(settled)),
        Search::Stopped { size, .. } => format!("stopped={size}"),
    };
    if stored.has("choices") {
        format!("{told} choices={}", search.choices())
    } else {
        told
    }
}

fn from_solver(answer: SolverAnswer) -> String {
    match answer {
        SolverAnswer::Case { length } => format!("length={length}"),
        SolverAnswer::ClaimedNone => "claimed=none".to_string(),
    }
}

fn refusal(refusal: Refusal) -> String {
    format!(
        "refused={} line={} column={} needed={}",
        refusal.reason.number(),
        refusal.line,
        refusal.column,
        refusal.needed
    )
}

fn merge_refusal(merge: MergeRefusal) -> String {
    let sheet = merge.sheet.map(|sheet| format!(" sheet={}", sheet.number()));
    refusal(merge.refusal) + &sheet.unwrap_or_default()
}

fn yes_no(yes: bool) -> &'static str {
    if yes {
        "yes"
    } else {
        "no"
    }
}

fn same<T: PartialEq + std::fmt::Debug + ?Sized>(what: &str, is: &T, should: &T) -> Result<(), String> {
    if is == should {
        return Ok(());
    }
    Err(format!("{what} is {is:?}, should be {should:?}"))
}

/// Bytes that no text would leave by chance, to see which were written.
pub fn patterned_bytes(length: u64) -> Vec<u8> {
    (0..length)
        .map(|i| (i.wrapping_mul(37) ^ (i >> 8)) as u8 | 0x80)
        .collect()
}

/// Numbers none of which is zero, likewise.
pub fn patterned_numbers(length: u64) -> Vec<u32> {
    (0..length)
        .map(|i| (i as u32).wrapping_mul(2_654_435_761) | 1)
        .collect()
}
