//! The inputs of a call, and how they are stored.

use crate::{MOST_OUTPUT, MOST_WORK};
use nesskettle_reference::{needed, write, FindOptions, Symmetry, Terms, WriteOptions};

/// A search of terms as written that is told no.
pub const TOLD_NO: FindOptions = largest(Terms::AsWritten, Symmetry::Kept);

/// With the largest allowance.
pub const fn largest(terms: Terms, symmetry: Symmetry) -> FindOptions {
    FindOptions {
        terms,
        symmetry,
        allowance: FindOptions::LARGEST_ALLOWANCE,
    }
}

#[derive(Clone, Default)]
pub struct Call {
    /// Or TPTP clauses.
    pub sheet: Vec<u8>,
    /// A case, a setting, a solver's answer, a second sheet, or a case and a list.
    pub beside: Vec<u8>,
    /// Low, or the size, or the length of the case before a list.
    pub low: u64,
    pub high: u64,
    /// 0 where the operation takes none.
    pub allowance: u64,
    pub work: u64,
    pub output: u64,
}

impl Call {
    /// Puts the input in its stored form.
    pub fn put(&self, data: &mut Vec<u8>) {
        let (sheet, beside) = (self.sheet.len(), self.beside.len());
        let numbers = format!(
            "{sheet} {beside} {} {} {} {} {}\n",
            self.low, self.high, self.allowance, self.work, self.output
        );
        data.extend(numbers.bytes());
        data.extend(&self.sheet);
        data.extend(&self.beside);
    }
}

pub fn reading(sheet: impl AsRef<[u8]>) -> Call {
    Call {
        sheet: sheet.as_ref().to_vec(),
        ..Call::default()
    }
}

pub fn judging(sheet: impl AsRef<[u8]>, case: impl AsRef<[u8]>) -> Call {
    Call {
        beside: case.as_ref().to_vec(),
        ..reading(sheet)
    }
}

pub fn writing(sheet: impl AsRef<[u8]>, size: u64, output: u64) -> Call {
    Call {
        low: size,
        output,
        ..reading(sheet)
    }
}

pub fn reading_back(sheet: impl AsRef<[u8]>, size: u64, setting: &[u8], output: u64) -> Call {
    Call {
        beside: setting.to_vec(),
        ..writing(sheet, size, output)
    }
}

pub fn setting_of(sheet: impl AsRef<[u8]>, case: impl AsRef<[u8]>, output: u64) -> Call {
    Call {
        output,
        ..judging(sheet, case)
    }
}

pub fn answered(sheet: impl AsRef<[u8]>, size: u64, answer: impl AsRef<[u8]>, output: u64) -> Call {
    Call {
        beside: answer.as_ref().to_vec(),
        ..writing(sheet, size, output)
    }
}

/// A search with the largest allowance.
pub fn finding(sheet: impl AsRef<[u8]>, low: u64, high: u64, work: u64, output: u64) -> Call {
    Call {
        allowance: FindOptions::LARGEST_ALLOWANCE,
        work,
        ..finding_plain(sheet, low, high, output)
    }
}

pub fn finding_plain(sheet: impl AsRef<[u8]>, low: u64, high: u64, output: u64) -> Call {
    Call {
        low,
        high,
        output,
        ..reading(sheet)
    }
}

pub fn importing(clauses: impl AsRef<[u8]>, output: u64) -> Call {
    Call {
        output,
        ..reading(clauses)
    }
}

pub fn merging(first: impl AsRef<[u8]>, second: impl AsRef<[u8]>, output: u64) -> Call {
    Call {
        beside: second.as_ref().to_vec(),
        output,
        ..reading(first)
    }
}

/// A search with just the work and output that it needs, of terms as written, told no.
pub fn searching(sheet: impl AsRef<[u8]>, low: u64, high: u64) -> Call {
    searching_of(sheet, low, high, TOLD_NO)
}

/// As [`searching`], with other options.
pub fn searching_of(sheet: impl AsRef<[u8]>, low: u64, high: u64, options: FindOptions) -> Call {
    let (work, output) = needed(sheet.as_ref(), high, options).expect("the sheet is taken");
    finding(sheet, low, high, work, output)
}

/// The search with just what it needs, or with little where the sheet is refused.
pub fn taken_or(sheet: &[u8], low: u64, high: u64, options: FindOptions) -> Call {
    match needed(sheet, high, options) {
        Ok((work, _)) if work <= MOST_WORK => searching_of(sheet, low, high, options),
        _ => finding(sheet, low, high, 100, 100),
    }
}

/// Writing with an output of the length that the text needs, and where it is short with one byte less and with more.
pub fn with_lengths(sheet: &[u8], size: u64, options: WriteOptions) -> Vec<Call> {
    let needed = write(sheet, size, options, &mut []).map_or_else(|refusal| refusal.needed, |length| length as u64);
    match needed {
        0 => vec![writing(sheet, size, 1_000)],
        1..100 => [needed, needed - 1, needed + 9]
            .map(|n| writing(sheet, size, n))
            .to_vec(),
        100..=MOST_OUTPUT => vec![writing(sheet, size, needed)],
        _ => vec![writing(sheet, size, 1_000)],
    }
}

/// One of the sheets of `rust/data/sheets`, or a case there.
pub fn file(name: &str) -> Vec<u8> {
    let path = std::path::Path::new(env!("CARGO_MANIFEST_DIR"))
        .join("../data/sheets")
        .join(name);
    std::fs::read(path).expect("the file is there")
}
