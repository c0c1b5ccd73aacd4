//! The command `nesskettle`: the operations for people.
//!
//! It reads files, lends buffers and prints; every answer is the library's.

mod explain;
mod find;
mod from_solver;
mod merge;
mod named;
mod options;
mod renumber;
mod report;
mod room;
mod same;
mod setting;
mod stopped;
mod symbols;
mod szs;
mod tables;
mod values;

use nesskettle::{Terms, WriteOptions};
use options::{Command, Sheet};
use report::{Failure, File};
use std::io::Write;
use std::process::ExitCode;

/// The answer is found, yes, or a text.
const YES: u8 = 0;
/// The answer is none or no.
const NO: u8 = 1;
/// Refused, or the command was not called as it must be.
const REFUSED: u8 = 2;
/// A SAT solver says that there is none, which is not an answer of the library's.
const CLAIMED_NONE: u8 = 3;
/// The search was stopped: more choices are needed than are allowed.
const STOPPED: u8 = 4;

fn main() -> ExitCode {
    let answered = options::parse(std::env::args().skip(1)).and_then(run);
    let status = answered.unwrap_or_else(|failure| {
        eprintln!("nesskettle: {failure}");
        REFUSED
    });
    ExitCode::from(status)
}

fn run(command: Command) -> Result<u8, Failure> {
    match command {
        Command::Help => print(options::HELP.as_bytes()),
        Command::Version => print(concat!("nesskettle ", env!("CARGO_PKG_VERSION"), "\n").as_bytes()),
        Command::Tptp { file } => print(&from_tptp(File::read(&file)?)?.bytes),
        Command::Merge { first, second } => merge::merge(&read_sheet(&first)?, &read_sheet(&second)?),
        Command::Check { sheet } => check(&read_sheet(&sheet)?),
        Command::Judge { sheet, case } => judge(&read_sheet(&sheet)?, &File::read(&case)?),
        Command::Explain { sheet, case } => explain::explain(&read_sheet(&sheet)?, &File::read(&case)?),
        Command::Clauses { sheet, size, options } => clauses(&read_sheet(&sheet)?, size, options),
        Command::ReadBack {
            sheet,
            size,
            terms,
            setting,
            tables,
        } => read_back(&read_sheet(&sheet)?, size, terms, &File::read(&setting)?, tables),
        Command::FromSolver {
            sheet,
            size,
            answer,
            tables,
        } => from_solver::from_solver(&read_sheet(&sheet)?, size, &File::read(&answer)?, tables),
        Command::Setting { sheet, case } => setting::setting(&read_sheet(&sheet)?, &File::read(&case)?),
        Command::Renumber {
            sheet,
            case,
            list,
            tables,
        } => renumber::renumber(&read_sheet(&sheet)?, &File::read(&case)?, &list, tables),
        Command::LeastForm { sheet, case, tables } => {
            renumber::print_least_form(&read_sheet(&sheet)?, &File::read(&case)?, tables)
        }
        Command::Same { sheet, first, second } => {
            same::same(&read_sheet(&sheet)?, &File::read(&first)?, &File::read(&second)?)
        }
        Command::Find {
            sheet,
            low,
            high,
            engine,
            layout,
        } => find::find(&sheet, low, high, engine, layout),
    }
}

fn read_sheet(sheet: &Sheet) -> Result<File, Failure> {
    let file = File::read(&sheet.path)?;
    if sheet.is_tptp {
        from_tptp(file)
    } else {
        Ok(file)
    }
}

/// The sheet that a file of TPTP clauses is read into. No call refuses it for a line of its own, so that the file's lines
/// are not needed any more.
fn from_tptp(file: File) -> Result<File, Failure> {
    let sheet = room::text(|output| nesskettle::from_tptp(&file.bytes, output)).map_err(|r| file.refused(r))?;
    Ok(File {
        name: format!("the sheet of {}", file.name),
        bytes: sheet,
    })
}

fn check(sheet: &File) -> Result<u8, Failure> {
    let counts = nesskettle::read(&sheet.bytes).map_err(|r| sheet.refused(r))?;
    let functions = counted(counts.functions, "function");
    let predicates = counted(counts.predicates, "predicate");
    let clauses = counted(counts.clauses, "clause");
    print(format!("{functions}, {predicates}, {clauses}\n").as_bytes())
}

fn counted(count: u64, what: &str) -> String {
    let plural = if count == 1 { "" } else { "s" };
    format!("{count} {what}{plural}")
}

fn judge(sheet: &File, case: &File) -> Result<u8, Failure> {
    let judged = nesskettle::judge(&sheet.bytes, &case.bytes);
    let yes = judged.map_err(|r| report::sheet_or_case_refused(r, sheet, case))?;
    print(if yes { b"yes\n" } else { b"no\n" })?;
    Ok(if yes { YES } else { NO })
}

fn clauses(sheet: &File, size: u64, options: WriteOptions) -> Result<u8, Failure> {
    let written = |options: WriteOptions, output: &mut [u8]| nesskettle::write(&sheet.bytes, size, options, output);
    let taken = |terms: Terms| named::without_limit(written(WriteOptions { terms, ..options }, &mut []));
    let text = room::text(|output| written(options, output));
    print(&text.map_err(|r| named::refused(sheet, r, options.terms, taken))?)
}

fn read_back(sheet: &File, size: u64, terms: Terms, setting: &File, tables: bool) -> Result<u8, Failure> {
    let setting = setting.digits()?;
    let read = |terms: Terms, output: &mut [u8]| nesskettle::read_back(&sheet.bytes, size, terms, &setting, output);
    let taken = |terms: Terms| named::without_limit(read(terms, &mut []));
    let case = room::text(|output| read(terms, output)).map_err(|r| named::refused(sheet, r, terms, taken))?;
    print_case(sheet, &case, tables)
}

/// Prints a case of the sheet, as it is or as tables.
fn print_case(sheet: &File, case: &[u8], tables: bool) -> Result<u8, Failure> {
    if tables {
        print(tables::tables(&sheet.bytes, case).as_bytes())
    } else {
        print(case)
    }
}

/// Prints an answer that is no "no".
fn print(text: &[u8]) -> Result<u8, Failure> {
    let mut out = std::io::stdout().lock();
    let written = out.write_all(text).and_then(|()| out.flush());
    written.map_err(|e| Failure::new(format!("cannot write the answer: {e}")))?;
    Ok(YES)
}
