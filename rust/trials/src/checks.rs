//! The calls that take switches, terms as written or named and constant clauses or none, each on the library and on the
//! reference: the same answer, and every lent byte and number the same.

use crate::buffers::Lent;
use crate::expected;
use crate::options::told;
use crate::tally::Tally;
use nesskettle::raw;
use nesskettle_reference::{self as reference, FindOptions, Symmetry, Terms, WriteOptions};

/// The C interface's numbers for named terms and for constant clauses: 0 is no, every other number yes.
#[derive(Clone, Copy, Debug)]
pub struct Switches {
    pub named: u32,
    pub symmetry: u32,
}

/// Terms as written, no constant clauses.
pub const OFF: Switches = Switches { named: 0, symmetry: 0 };

impl Switches {
    pub fn write_options(self) -> WriteOptions {
        let (terms, symmetry) = (terms(self.named), symmetry(self.symmetry));
        WriteOptions { terms, symmetry }
    }

    pub fn find_options(self) -> FindOptions {
        told(terms(self.named), symmetry(self.symmetry))
    }
}

fn terms(named: u32) -> Terms {
    match named {
        0 => Terms::AsWritten,
        _ => Terms::Named,
    }
}

fn symmetry(symmetry: u32) -> Symmetry {
    match symmetry {
        0 => Symmetry::Kept,
        _ => Symmetry::Reduced,
    }
}

pub fn check_write(tally: &mut Tally, sheet: &[u8], size: u64, switches: Switches, output_length: usize) {
    let mut should = vec![0; output_length];
    let written = reference::write(sheet, size, switches.write_options(), &mut should);
    let (expected, front) = expected::text(written, &should);
    let lent = sheet.to_vec();
    let mut output = Lent::bytes(output_length);
    let out = output.lend();
    // SAFETY: pointers and lengths are slices', and what is lent for writing is lent to this call alone; so below.
    let answer = unsafe {
        raw::nk_write(
            lent.as_ptr(),
            lent.len(),
            size,
            switches.named,
            switches.symmetry,
            out.as_mut_ptr(),
            out.len(),
        )
    };
    let call = || {
        format!(
            "write, size {size}, {switches:?}, output {output_length}\n{}",
            text(sheet)
        )
    };
    assert_eq!(answer, expected, "{}", call());
    assert!(lent == sheet && output.holds(front), "lent bytes: {}", call());
    tally.add("written", answer.reason);
}

pub fn check_read_back(tally: &mut Tally, sheet: &[u8], size: u64, named: u32, setting: &[u8], output_length: usize) {
    let mut should = vec![0; output_length];
    let read_back = reference::read_back(sheet, size, terms(named), setting, &mut should);
    let (expected, front) = expected::text(read_back, &should);
    let (lent, lent_setting) = (sheet.to_vec(), setting.to_vec());
    let mut output = Lent::bytes(output_length);
    let out = output.lend();
    let answer = unsafe {
        raw::nk_read_back(
            lent.as_ptr(),
            lent.len(),
            size,
            named,
            lent_setting.as_ptr(),
            lent_setting.len(),
            out.as_mut_ptr(),
            out.len(),
        )
    };
    let call = || {
        format!(
            "read back, size {size}, named {named}, setting {setting:?}, output {output_length}\n{}",
            text(sheet)
        )
    };
    assert_eq!(answer, expected, "{}", call());
    assert!(
        lent == sheet && lent_setting == setting && output.holds(front),
        "lent bytes: {}",
        call()
    );
    tally.add("written", answer.reason);
}

pub fn check_find(
    tally: &mut Tally,
    sheet: &[u8],
    (low, high): (u64, u64),
    switches: Switches,
    allowance: u64,
    work_length: usize,
    output_length: usize,
) {
    let mut should = vec![0; output_length];
    let mut scratch = vec![0; work_length];
    let options = FindOptions {
        allowance,
        ..switches.find_options()
    };
    let search = reference::find(sheet, low, high, options, &mut scratch, &mut should);
    let zeros = if search.is_ok() { work_length } else { 0 };
    let (expected, front) = expected::search(search);
    let lent = sheet.to_vec();
    let mut work = Lent::numbers(work_length);
    let mut output = Lent::bytes(output_length);
    let (numbers, out) = (work.lend(), output.lend());
    let answer = unsafe {
        raw::nk_find(
            lent.as_ptr(),
            lent.len(),
            low,
            high,
            switches.named,
            switches.symmetry,
            allowance,
            numbers.as_mut_ptr(),
            numbers.len(),
            out.as_mut_ptr(),
            out.len(),
        )
    };
    let call = || {
        format!(
            "find, {low} to {high}, {switches:?}, allowance {allowance}, work {work_length}, output {output_length}\n{}",
            text(sheet)
        )
    };
    assert_eq!(answer, expected, "{}", call());
    assert!(
        lent == sheet && output.holds(&should[..front]),
        "lent bytes: {}",
        call()
    );
    assert!(work.holds(&vec![0; zeros]), "lent numbers: {}", call());
    tally.add(expected::outcome(&answer), answer.reason);
}

pub fn text(bytes: &[u8]) -> String {
    String::from_utf8_lossy(bytes).into_owned()
}
