//! `nesskettle renumber` and `nesskettle least-form`: a case with its elements numbered otherwise, and the least of all such.

use crate::report::{sheet_or_case_refused, Failure, File};
use crate::{counted, print_case, room};
use nesskettle::{Reason, Refusal};

pub fn renumber(sheet: &File, case: &File, list: &[u8], tables: bool) -> Result<u8, Failure> {
    let renumbered = |output: &mut [u8]| nesskettle::renumber(&sheet.bytes, &case.bytes, list, output);
    let text = room::text(renumbered).map_err(|r| refused(r, sheet, case))?;
    print_case(sheet, &text, tables)
}

pub fn print_least_form(sheet: &File, case: &File, tables: bool) -> Result<u8, Failure> {
    print_case(sheet, &least_form(sheet, case)?, tables)
}

pub fn least_form(sheet: &File, case: &File) -> Result<Vec<u8>, Failure> {
    let written = |output: &mut [u8]| nesskettle::least_form(&sheet.bytes, &case.bytes, output);
    room::text(written).map_err(|r| sheet_or_case_refused(r, sheet, case))
}

/// A list is refused with the case's size, which it must fit.
fn refused(refusal: Refusal, sheet: &File, case: &File) -> Failure {
    let failure = sheet_or_case_refused(refusal, sheet, case);
    if refusal.reason != Reason::BadList {
        return failure;
    }
    // the case was read, and its size is a digit at the end of its second line
    let size = u64::from(case.bytes[12] - b'0');
    failure.with(&format!("{} has {}", case.name, counted(size, "element")))
}
