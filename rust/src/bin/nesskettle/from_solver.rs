//! `nesskettle from-solver`: the case that a SAT solver answers, or its claim that there is none.

use crate::report::{Failure, File};
use crate::{print, print_case, room, CLAIMED_NONE};
use nesskettle::SolverAnswer;

pub fn from_solver(sheet: &File, size: u64, answer: &File, tables: bool) -> Result<u8, Failure> {
    let read = |output: &mut [u8]| {
        let answer = nesskettle::from_solver(&sheet.bytes, size, &answer.bytes, output)?;
        Ok(match answer {
            SolverAnswer::Case { length } => length,
            SolverAnswer::ClaimedNone => 0,
        })
    };
    let case = room::text(read).map_err(|r| sheet.refused(r))?;
    // no case is without a byte
    if case.is_empty() {
        print(claimed_none(size).as_bytes())?;
        return Ok(CLAIMED_NONE);
    }
    print_case(sheet, &case, tables)
}

fn claimed_none(size: u64) -> String {
    format!(
        "claimed none: the solver says that no case of size {size} is a model.\n\
         This is the solver's claim, which nothing here has checked; it says nothing about other sizes.\n"
    )
}
