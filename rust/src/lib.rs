//! Nesskettle, a finite model finder whose every answer is proved: safe calls of its C interface.
//!
//! | call | answers |
//! |---|---|
//! | [`read`] | how many functions, predicates and clauses a sheet has |
//! | [`judge`] | whether a case is a model of a sheet |
//! | [`explain`] | why it is none: the first clause that fails, and the first choice of values under which it does |
//! | [`write`] | a sheet's clauses at a size, as DIMACS text |
//! | [`read_back`] | the case that a setting of the propositional variables stands for |
//! | [`setting`] | the setting of a case, the other way of [`read_back`] |
//! | [`find`] | the least model at the smallest size, or that there is none, or that it was stopped |
//! | [`find_plain`] | the least model too, by filling cells one by one: without clauses, for up to 64 cells |
//! | [`from_tptp`] | the sheet that a file of TPTP clauses is read into |
//! | [`from_solver`] | the case that a SAT solver answers, if it is a model; or the solver's claim that there is none |
//! | [`merge`] | two sheets made one |
//! | [`renumber`] | a case with its elements numbered otherwise |
//! | [`least_form`] | the least of all renumberings of a case |
//!
//! [`write`], [`read_back`] and [`find`] take a sheet's fixed terms as they are written or named, see [`Terms`]. [`write`] and
//! [`find`] keep or reduce the symmetry between a model and its renumberings, see [`Symmetry`]: [`find`] reduces it by default,
//! [`write`] does not. [`find`] makes as many choices as its options allow, by default 1,000,000, and says how many it made.
//!
//! Every call takes any bytes and numbers. A refused call has changed no lent byte and no lent number.

pub mod raw;

pub use nesskettle_answers::{Counts, FirstFailure, Operations, Reason, Refusal, Search, SolverAnswer};
pub use nesskettle_answers::{FindOptions, Symmetry, Terms, WriteOptions};
pub use nesskettle_answers::{MergeRefusal, WhichSheet};

/// The calls below as one value.
pub const OPERATIONS: Operations = Operations {
    name: "nesskettle",
    read,
    judge,
    explain,
    write,
    read_back,
    setting,
    find,
    find_plain,
    from_tptp,
    from_solver,
    merge,
    renumber,
    least_form,
};

/// Reads a sheet.
pub fn read(sheet: &[u8]) -> Result<Counts, Refusal> {
    // SAFETY: pointer and length are a slice's.
    let answer = unsafe { raw::nk_read(sheet.as_ptr(), sheet.len()) };
    match answer.outcome {
        0 => Err(refusal(answer.reason, answer.line, answer.column, 0)),
        1 => Ok(Counts {
            functions: answer.funs,
            predicates: answer.preds,
            clauses: answer.clauses,
        }),
        other => unknown_outcome(other),
    }
}

/// Is the case a model of the sheet?
pub fn judge(sheet: &[u8], case: &[u8]) -> Result<bool, Refusal> {
    // SAFETY: pointers and lengths are slices'.
    let answer = unsafe { raw::nk_judge(sheet.as_ptr(), sheet.len(), case.as_ptr(), case.len()) };
    match answer.outcome {
        0 => Err(refusal(answer.reason, answer.line, answer.column, 0)),
        1 => Ok(true),
        2 => Ok(false),
        other => unknown_outcome(other),
    }
}

/// Why is the case no model of the sheet? Nothing where it is one.
///
/// Clauses are taken in the sheet's order, and choices of values with the last letter's fastest.
pub fn explain(sheet: &[u8], case: &[u8]) -> Result<Option<FirstFailure>, Refusal> {
    // SAFETY: pointers and lengths are slices'.
    let answer = unsafe { raw::nk_explain(sheet.as_ptr(), sheet.len(), case.as_ptr(), case.len()) };
    match answer.outcome {
        0 => Err(refusal(answer.reason, answer.line, answer.column, 0)),
        1 => Ok(None),
        2 => Ok(Some(first_failure(&answer))),
        other => unknown_outcome(other),
    }
}

/// Writes the sheet's clauses at a size as DIMACS text and answers its length. The bytes after it are unchanged.
///
/// The settings that satisfy them are those of the models, one each, and with [`Symmetry::Reduced`] those of the models that
/// obey the constant clauses.
pub fn write(sheet: &[u8], size: u64, options: WriteOptions, output: &mut [u8]) -> Result<usize, Refusal> {
    // SAFETY: pointers and lengths are slices', and the output is lent to this call alone.
    written(unsafe {
        raw::nk_write(
            sheet.as_ptr(),
            sheet.len(),
            size,
            named(options.terms),
            symmetry(options.symmetry),
            output.as_mut_ptr(),
            output.len(),
        )
    })
}

/// Writes the case that a setting stands for and answers its length. The bytes after it are unchanged.
///
/// The setting has one byte, 0 or 1, for each propositional variable of the text that [`write`] leaves of the same `terms`.
pub fn read_back(sheet: &[u8], size: u64, terms: Terms, setting: &[u8], output: &mut [u8]) -> Result<usize, Refusal> {
    // SAFETY: pointers and lengths are slices', and the output is lent to this call alone.
    written(unsafe {
        raw::nk_read_back(
            sheet.as_ptr(),
            sheet.len(),
            size,
            named(terms),
            setting.as_ptr(),
            setting.len(),
            output.as_mut_ptr(),
            output.len(),
        )
    })
}

/// Writes the setting of a case at its own size and answers its length. The bytes after it are unchanged.
///
/// The setting has one byte, 0 or 1, for each propositional variable, and [`read_back`] of it, of terms as they are written,
/// gives the case. The case need not be a model.
pub fn setting(sheet: &[u8], case: &[u8], output: &mut [u8]) -> Result<usize, Refusal> {
    // SAFETY: pointers and lengths are slices', and the output is lent to this call alone.
    written(unsafe {
        raw::nk_setting(
            sheet.as_ptr(),
            sheet.len(),
            case.as_ptr(),
            case.len(),
            output.as_mut_ptr(),
            output.len(),
        )
    })
}

/// Searches the sizes from low to high for the least model at the smallest size: the least of all with
/// [`Symmetry::Kept`], else the least of those that obey the constant clauses, of which there is one wherever there is a model.
///
/// None is settled where low is 1, no function has arguments and high is at least the number of constants; then the
/// sheet has no model of any size.
///
/// It is stopped exactly if it needs one choice more than are allowed, see [`FindOptions::allowance`], and says at which size:
/// no case of a smaller searched size is a model. To go on, a search from that size has a whole allowance for it.
///
/// On all three results `work` holds zeros. Found, the case stands at the output's front, and the bytes after it are
/// unchanged; none or stopped, the whole output is.
pub fn find(
    sheet: &[u8],
    low: u64,
    high: u64,
    options: FindOptions,
    work: &mut [u32],
    output: &mut [u8],
) -> Result<Search, Refusal> {
    // SAFETY: pointers and lengths are slices', and work and output are lent to this call alone.
    searched(unsafe {
        raw::nk_find(
            sheet.as_ptr(),
            sheet.len(),
            low,
            high,
            named(options.terms),
            symmetry(options.symmetry),
            options.allowance,
            work.as_mut_ptr(),
            work.len(),
            output.as_mut_ptr(),
            output.len(),
        )
    })
}

/// The search of [`find`] a second time, as on a whiteboard: it fills the cells of a case in order, the least value first,
/// and judges each full case by truth alone. Where neither is refused and [`find`] is not stopped, it answers and leaves the same
/// output as [`find`] with [`Symmetry::Kept`], but that it makes no choices: their number is 0.
///
/// It makes no clauses and is lent no work area. A sheet with over 64 cells at high is refused; in the worst case every
/// case of the searched sizes is tried.
///
/// Found, the case stands at the output's front, and the bytes after it are unchanged; none, the whole output is.
pub fn find_plain(sheet: &[u8], low: u64, high: u64, output: &mut [u8]) -> Result<Search, Refusal> {
    // SAFETY: pointers and lengths are slices', and the output is lent to this call alone.
    searched(unsafe {
        raw::nk_find_plain(
            sheet.as_ptr(),
            sheet.len(),
            low,
            high,
            output.as_mut_ptr(),
            output.len(),
        )
    })
}

/// Reads TPTP clauses into a sheet, writes the sheet and answers its length. The bytes after it are unchanged.
///
/// A case is a model of the sheet exactly if every clause of the text is true in it.
pub fn from_tptp(text: &[u8], output: &mut [u8]) -> Result<usize, Refusal> {
    // SAFETY: pointers and lengths are slices', and the output is lent to this call alone.
    written(unsafe { raw::nk_from_tptp(text.as_ptr(), text.len(), output.as_mut_ptr(), output.len()) })
}

/// Reads what a SAT solver answers, in the layout of the solver competitions, to the clauses that [`write`] writes of the
/// sheet at this size, of terms as they are written, with or without constant clauses; writes the case and answers its
/// length. The bytes after it are unchanged.
///
/// A case that comes out is a model of the sheet. That there is none is the solver's claim alone; the output, which may
/// have any length, is then unchanged.
pub fn from_solver(sheet: &[u8], size: u64, text: &[u8], output: &mut [u8]) -> Result<SolverAnswer, Refusal> {
    // SAFETY: pointers and lengths are slices', and the output is lent to this call alone.
    let answer = unsafe {
        raw::nk_from_solver(
            sheet.as_ptr(),
            sheet.len(),
            size,
            text.as_ptr(),
            text.len(),
            output.as_mut_ptr(),
            output.len(),
        )
    };
    match answer.outcome {
        2 => Ok(SolverAnswer::ClaimedNone),
        _ => written(answer).map(|length| SolverAnswer::Case { length }),
    }
}

/// Makes one sheet of two, writes it and answers its length. The bytes after it are unchanged.
///
/// It has the first sheet's symbols and clauses, then the second's that are new. A name with the same kind and arity in both
/// is one symbol, and a clause is not new if the first sheet has it byte for byte. A case is a model of the merged sheet
/// exactly if its tables for each sheet's symbols form a model of that sheet.
pub fn merge(first: &[u8], second: &[u8], output: &mut [u8]) -> Result<usize, MergeRefusal> {
    // SAFETY: pointers and lengths are slices', and the output is lent to this call alone.
    let answer = unsafe {
        raw::nk_merge(
            first.as_ptr(),
            first.len(),
            second.as_ptr(),
            second.len(),
            output.as_mut_ptr(),
            output.len(),
        )
    };
    match answer.outcome {
        0 => Err(MergeRefusal {
            refusal: refusal(answer.reason, answer.line, answer.column, answer.length),
            sheet: which_sheet(answer.sheet),
        }),
        1 => Ok(answer.length as usize),
        other => unknown_outcome(other),
    }
}

/// Writes the case with its elements numbered otherwise and answers its length. The bytes after it are unchanged.
///
/// The list is a rearrangement of 1 to the case's size, one byte for each element: element d becomes the number that stands
/// d-th in it, in arguments and in values. The case need not be a model; renumbered it is one exactly if it was.
pub fn renumber(sheet: &[u8], case: &[u8], list: &[u8], output: &mut [u8]) -> Result<usize, Refusal> {
    // SAFETY: pointers and lengths are slices', and the output is lent to this call alone.
    written(unsafe {
        raw::nk_renumber(
            sheet.as_ptr(),
            sheet.len(),
            case.as_ptr(),
            case.len(),
            list.as_ptr(),
            list.len(),
            output.as_mut_ptr(),
            output.len(),
        )
    })
}

/// Writes the least form of a case, the least of all that [`renumber`] writes of it, and answers its length. The bytes after it
/// are unchanged.
///
/// The least forms of two cases of one sheet and size are equal exactly if some rearrangement turns one into the other.
pub fn least_form(sheet: &[u8], case: &[u8], output: &mut [u8]) -> Result<usize, Refusal> {
    // SAFETY: pointers and lengths are slices', and the output is lent to this call alone.
    written(unsafe {
        raw::nk_least_form(
            sheet.as_ptr(),
            sheet.len(),
            case.as_ptr(),
            case.len(),
            output.as_mut_ptr(),
            output.len(),
        )
    })
}

/// The C interface's number.
fn named(terms: Terms) -> u32 {
    match terms {
        Terms::AsWritten => 0,
        Terms::Named => 1,
    }
}

/// The C interface's number.
fn symmetry(symmetry: Symmetry) -> u32 {
    match symmetry {
        Symmetry::Kept => 0,
        Symmetry::Reduced => 1,
    }
}

fn first_failure(answer: &raw::ExplainAnswer) -> FirstFailure {
    let letters = answer.letters.iter().map(|&letter| char::from(letter));
    let choice = letters.zip(answer.values).take(answer.count as usize);
    FirstFailure::new(answer.clause, choice)
}

fn written(answer: raw::WriteAnswer) -> Result<usize, Refusal> {
    match answer.outcome {
        0 => Err(refusal(answer.reason, answer.line, answer.column, answer.length)),
        1 => Ok(answer.length as usize),
        other => unknown_outcome(other),
    }
}

fn searched(answer: raw::FindAnswer) -> Result<Search, Refusal> {
    match answer.outcome {
        0 => Err(refusal(answer.reason, answer.line, answer.column, answer.length)),
        1 => Ok(Search::Found {
            size: answer.size,
            length: answer.length as usize,
            choices: answer.choices,
        }),
        2 => Ok(Search::None {
            settled: answer.settled == 1,
            choices: answer.choices,
        }),
        3 => Ok(Search::Stopped {
            size: answer.size,
            choices: answer.choices,
        }),
        other => unknown_outcome(other),
    }
}

fn refusal(number: u32, line: u64, column: u64, needed: u64) -> Refusal {
    let reason = Reason::from_number(number).unwrap_or_else(|| panic!("the library answered reason {number}"));
    Refusal {
        reason,
        line,
        column,
        needed,
    }
}

fn which_sheet(number: u32) -> Option<WhichSheet> {
    match number {
        0 => None,
        1 => Some(WhichSheet::First),
        2 => Some(WhichSheet::Second),
        other => panic!("the library answered sheet {other}"),
    }
}

/// An outcome that `include/nesskettle.h` does not have: another library was linked.
fn unknown_outcome(outcome: u32) -> ! {
    panic!("the library answered outcome {outcome}")
}
