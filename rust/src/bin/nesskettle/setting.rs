//! `nesskettle setting`: the setting of a case, as `read-back` takes it.

use crate::report::{sheet_or_case_refused, Failure, File};
use crate::symbols::{symbols, Symbol};
use crate::{print, room};

pub fn setting(sheet: &File, case: &File) -> Result<u8, Failure> {
    let written = |output: &mut [u8]| nesskettle::setting(&sheet.bytes, &case.bytes, output);
    let setting = room::text(written).map_err(|r| sheet_or_case_refused(r, sheet, case))?;
    print(lines(sheet, case, &setting).as_bytes())
}

/// A line for each symbol, its digits in groups of as many as the size.
fn lines(sheet: &File, case: &File, setting: &[u8]) -> String {
    let (sheet, case) = (
        String::from_utf8_lossy(&sheet.bytes),
        String::from_utf8_lossy(&case.bytes),
    );
    let (size, symbols) = symbols(&sheet, &case);
    let mut rest = setting;
    let line = |symbol: &Symbol| {
        let cells = size.pow(symbol.arity as u32);
        let (digits, after) = rest.split_at(if symbol.is_predicate { cells } else { cells * size });
        rest = after;
        let groups: Vec<String> = digits.chunks(size).map(group).collect();
        groups.join(" ") + "\n"
    };
    symbols.iter().map(line).collect()
}

fn group(digits: &[u8]) -> String {
    digits.iter().map(|digit| char::from(b'0' + digit)).collect()
}
