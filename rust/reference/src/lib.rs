//! Nesskettle's specification a second time, in plain Rust.
//!
//! Written from the specification, without a look at the proved code, so that both can be compared. Of some parts its authors
//! had seen more than the specification; the repository's README, Why trust it, has the list. The calls take and answer what
//! the proved library's calls do.

mod flattening;
mod grounding;
mod interpretation;
mod lines;
mod merging;
mod naming;
mod plain;
mod problem;
mod program;
mod renumbering;
mod search;
mod sheet;
mod solver;
mod symmetry;
mod syntax;
mod tptp;
pub mod vectors;

pub use nesskettle_answers::{Counts, FirstFailure, Operations, Reason, Refusal, Search, SolverAnswer};
pub use nesskettle_answers::{FindOptions, Symmetry, Terms, WriteOptions};
pub use nesskettle_answers::{MergeRefusal, WhichSheet};
pub use program::{explainer, program};
pub use sheet::sheet_of;

use grounding::{Counted, Numbering};
use interpretation::Interpretation;
use problem::Problem;
use solver::Claim;

/// The largest size.
pub const MAX_SIZE: u64 = 8;
/// The most instances, before dropping.
pub const MAX_INSTANCES: u64 = 1_000_000;
/// The most cells that the plain search fills.
pub const MAX_PLAIN_CELLS: usize = 64;

/// The calls below as one value.
pub const OPERATIONS: Operations = Operations {
    name: "reference",
    read,
    judge,
    explain,
    write,
    read_back,
    setting,
    find,
    find_plain,
    from_tptp,
    from_solver,
    merge,
    renumber,
    least_form,
};

/// Reads a sheet: its counts.
pub fn read(sheet: &[u8]) -> Result<Counts, Refusal> {
    let problem = Problem::read(sheet, Terms::AsWritten)?;
    Ok(Counts {
        functions: problem.functions.len() as u64,
        predicates: problem.predicates.len() as u64,
        clauses: problem.clauses.len() as u64,
    })
}

/// Is the case a model of the sheet?
pub fn judge(sheet: &[u8], case: &[u8]) -> Result<bool, Refusal> {
    Ok(explain(sheet, case)?.is_none())
}

/// The first clause that is not true in the case, and the first choice of values under which it fails; nothing where the
/// case is a model of the sheet.
pub fn explain(sheet: &[u8], case: &[u8]) -> Result<Option<FirstFailure>, Refusal> {
    let problem = Problem::read(sheet, Terms::AsWritten)?;
    let interpretation = Interpretation::read(&problem, case)?;
    Ok(interpretation.first_failure(&problem))
}

/// Writes the sheet's clauses at a size as DIMACS text; the text's length.
pub fn write(sheet: &[u8], size: u64, options: WriteOptions, out: &mut [u8]) -> Result<usize, Refusal> {
    let problem = Problem::read(sheet, options.terms)?;
    let size = checked_size(size)?;
    few_instances(&Counted::new(&problem, size, options.symmetry))?;
    let text = grounding::dimacs(&problem, size, options.symmetry);
    put(&text, out)
}

/// Reads a setting back and writes its case; the case's length.
pub fn read_back(sheet: &[u8], size: u64, terms: Terms, setting: &[u8], out: &mut [u8]) -> Result<usize, Refusal> {
    let problem = Problem::read(sheet, terms)?;
    let size = checked_size(size)?;
    let numbering = Numbering::new(&problem, size);
    if setting.len() != numbering.variables || setting.iter().any(|&b| b > 1) {
        return Err(refused(Reason::BadSetting));
    }
    let yes = |variable: usize| setting[variable] == 1;
    let cells = numbering.cells(&problem, yes).ok_or(refused(Reason::NotOneResult))?;
    put(&Interpretation::new(size, cells).text(&problem), out)
}

/// Writes the setting of a case, which need not be a model; the setting's length.
pub fn setting(sheet: &[u8], case: &[u8], out: &mut [u8]) -> Result<usize, Refusal> {
    let problem = Problem::read(sheet, Terms::AsWritten)?;
    let interpretation = Interpretation::read(&problem, case)?;
    put(&interpretation.setting(&problem), out)
}

/// Searches the sizes from low to high for the least model at the smallest size, with at most so many choices as are allowed.
pub fn find(
    sheet: &[u8],
    low: u64,
    high: u64,
    options: FindOptions,
    work: &mut [u32],
    out: &mut [u8],
) -> Result<Search, Refusal> {
    let problem = Problem::read(sheet, options.terms)?;
    let top = checked_range(low, high)?;
    if options.allowance > FindOptions::LARGEST_ALLOWANCE {
        return Err(refused(Reason::AllowanceTooLarge));
    }
    let counted = Counted::new(&problem, top, options.symmetry);
    few_instances(&counted)?;
    if (work.len() as u64) < counted.work() {
        return Err(short(Reason::WorkTooShort, counted.work()));
    }
    let longest = interpretation::text_length(&problem, top);
    if out.len() < longest {
        return Err(short(Reason::OutputTooShort, longest as u64));
    }
    work.fill(0);
    search_sizes(&problem, low, high, options, out)
}

/// What one size leaves of the allowance is the next one's.
fn search_sizes(
    problem: &Problem,
    low: u64,
    high: u64,
    options: FindOptions,
    out: &mut [u8],
) -> Result<Search, Refusal> {
    let mut left = options.allowance;
    for size in low..=high {
        let outcome = search::least_model(problem, size as usize, options.symmetry, &mut left);
        let choices = options.allowance - left;
        match outcome {
            search::Outcome::None => {}
            search::Outcome::Stopped => return Ok(Search::Stopped { size, choices }),
            search::Outcome::Found(cells) => {
                let length = put(&Interpretation::new(size as usize, cells).text(problem), out)?;
                return Ok(Search::Found { size, length, choices });
            }
        }
    }
    Ok(Search::None {
        settled: settled(problem, low, high),
        choices: options.allowance - left,
    })
}

/// The same search as on a whiteboard: it fills cells one by one and judges full cases. It makes no choices and never stops.
pub fn find_plain(sheet: &[u8], low: u64, high: u64, out: &mut [u8]) -> Result<Search, Refusal> {
    let search = find_plain_within(sheet, low, high, out, u64::MAX)?;
    Ok(search.expect("no search judges so many cases"))
}

/// As [`find_plain`], but a search that judges more cases than allowed ends with nothing, and has changed nothing.
pub fn find_plain_within(
    sheet: &[u8],
    low: u64,
    high: u64,
    out: &mut [u8],
    allowance: u64,
) -> Result<Option<Search>, Refusal> {
    let problem = Problem::read(sheet, Terms::AsWritten)?;
    let top = checked_range(low, high)?;
    if plain::cell_values(&problem, top).len() > MAX_PLAIN_CELLS {
        return Err(refused(Reason::TooManyCells));
    }
    let longest = interpretation::text_length(&problem, top);
    if out.len() < longest {
        return Err(short(Reason::OutputTooShort, longest as u64));
    }
    let mut left = allowance;
    for size in low as usize..=top {
        match plain::least_model(&problem, size, &mut left) {
            plain::Outcome::Stopped => return Ok(None),
            plain::Outcome::None => {}
            plain::Outcome::Found(case) => {
                return Ok(Some(Search::Found {
                    size: size as u64,
                    length: put(&case.text(&problem), out)?,
                    choices: 0,
                }));
            }
        }
    }
    Ok(Some(Search::None {
        settled: settled(&problem, low, high),
        choices: 0,
    }))
}

/// Reads TPTP clauses into a sheet and writes it; the sheet's length.
pub fn from_tptp(text: &[u8], out: &mut [u8]) -> Result<usize, Refusal> {
    put(&tptp::sheet(text)?, out)
}

/// Reads a SAT solver's answer to the clauses at a size. A case that is a model is written; none is the solver's claim.
pub fn from_solver(sheet: &[u8], size: u64, text: &[u8], out: &mut [u8]) -> Result<SolverAnswer, Refusal> {
    let problem = Problem::read(sheet, Terms::AsWritten)?;
    let size = checked_size(size)?;
    let numbering = Numbering::new(&problem, size);
    let claim = solver::claim(text, numbering.variables).ok_or(refused(Reason::BadAnswer))?;
    let Claim::Satisfiable(setting) = claim else {
        return Ok(SolverAnswer::ClaimedNone);
    };
    let yes = |variable: usize| setting[variable];
    let cells = numbering.cells(&problem, yes).ok_or(refused(Reason::NotOneResult))?;
    let interpretation = Interpretation::new(size, cells);
    if interpretation.first_failure(&problem).is_some() {
        return Err(refused(Reason::NoModel));
    }
    put(&interpretation.text(&problem), out).map(|length| SolverAnswer::Case { length })
}

/// Makes one sheet of two and writes it; the sheet's length.
pub fn merge(first: &[u8], second: &[u8], out: &mut [u8]) -> Result<usize, MergeRefusal> {
    let sheet = merging::merged(first, second)?;
    put(&sheet, out).map_err(merging::about_both)
}

/// Writes the case in which each element d is the d-th number of the list instead; the case's length.
pub fn renumber(sheet: &[u8], case: &[u8], list: &[u8], out: &mut [u8]) -> Result<usize, Refusal> {
    let problem = Problem::read(sheet, Terms::AsWritten)?;
    let interpretation = Interpretation::read(&problem, case)?;
    if !renumbering::is_rearrangement(list, interpretation.size) {
        return Err(refused(Reason::BadList));
    }
    put(
        &renumbering::renumbered(&problem, &interpretation, list).text(&problem),
        out,
    )
}

/// Writes the least of all renumberings of a case; its length.
pub fn least_form(sheet: &[u8], case: &[u8], out: &mut [u8]) -> Result<usize, Refusal> {
    let problem = Problem::read(sheet, Terms::AsWritten)?;
    let interpretation = Interpretation::read(&problem, case)?;
    put(&renumbering::least_form(&problem, &interpretation).text(&problem), out)
}

/// The needed lengths of a search: work numbers and output bytes at the size, for a sheet that is not refused.
pub fn needed(sheet: &[u8], size: u64, options: FindOptions) -> Result<(u64, u64), Refusal> {
    let problem = Problem::read(sheet, options.terms)?;
    let size = checked_size(size)?;
    let work = Counted::new(&problem, size, options.symmetry).work();
    Ok((work, interpretation::text_length(&problem, size) as u64))
}

/// The counts I and V of a sheet at a size: instances before dropping, propositional variables.
pub fn instances_and_variables(sheet: &[u8], size: u64, options: WriteOptions) -> Result<(u64, u64), Refusal> {
    let problem = Problem::read(sheet, options.terms)?;
    let counted = Counted::new(&problem, checked_size(size)?, options.symmetry);
    Ok((counted.instances, counted.variables))
}

/// The sizes from 1 on were searched, no function has arguments, and high is at least the number of constants.
fn settled(problem: &Problem, low: u64, high: u64) -> bool {
    low == 1 && problem.functions.iter().all(|f| f.arity == 0) && high >= problem.functions.len() as u64
}

/// The larger of two sizes that are 1 to 8 and in order.
fn checked_range(low: u64, high: u64) -> Result<usize, Refusal> {
    if low == 0 || low > high {
        return Err(refused(Reason::BadSize));
    }
    checked_size(high)
}

fn checked_size(size: u64) -> Result<usize, Refusal> {
    if (1..=MAX_SIZE).contains(&size) {
        Ok(size as usize)
    } else {
        Err(refused(Reason::BadSize))
    }
}

fn few_instances(counted: &Counted) -> Result<(), Refusal> {
    if counted.instances > MAX_INSTANCES {
        return Err(refused(Reason::TooManyInstances));
    }
    Ok(())
}

/// Puts the text at the output's front, or leaves the output and says how long it must be.
fn put(text: &[u8], out: &mut [u8]) -> Result<usize, Refusal> {
    match out.get_mut(..text.len()) {
        None => Err(short(Reason::OutputTooShort, text.len() as u64)),
        Some(front) => {
            front.copy_from_slice(text);
            Ok(text.len())
        }
    }
}

/// A refusal that names no line.
fn refused(reason: Reason) -> Refusal {
    short(reason, 0)
}

fn short(reason: Reason, needed: u64) -> Refusal {
    Refusal {
        reason,
        line: 0,
        column: 0,
        needed,
    }
}
