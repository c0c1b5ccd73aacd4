//! `nesskettle find`: the search, its progress for people who wait, and its outcome in each layout.

use crate::options::Sheet;
use crate::report::{Failure, File};
use crate::room::{Engine, Room};
use crate::{named, print, read_sheet, stopped, szs, tables, NO, STOPPED, YES};
use nesskettle::{FindOptions, Reason, Refusal, Search, Symmetry};
use std::io::IsTerminal;
use std::time::Instant;

/// The largest size.
const LARGEST: u64 = 8;

/// How an outcome is printed.
#[derive(Clone, Copy, Debug, PartialEq, Eq)]
pub enum Layout {
    /// As the program `finder` prints it.
    Lines,
    /// A model as tables.
    Tables,
    /// As TPTP's tools print it.
    Szs,
}

pub fn find(sheet: &Sheet, low: u64, high: u64, engine: Engine, layout: Layout) -> Result<u8, Failure> {
    let searched = read_sheet(sheet).and_then(|file| search(file, low, high, engine));
    if let (Layout::Szs, Err(failure)) = (layout, &searched) {
        print(szs::failed(&sheet.path, failure).as_bytes())?;
    }
    let (file, search, room) = searched?;
    match search {
        Search::Found { size, length, .. } => {
            let case = &room.output[..length];
            print(&match layout {
                Layout::Lines => [b"answer=found\n", case].concat(),
                Layout::Tables => found_tables(&file.bytes, size, case).into_bytes(),
                Layout::Szs => szs::found(&sheet.path, &file.bytes, case).into_bytes(),
            })?;
            Ok(YES)
        }
        Search::None { settled, .. } => {
            let text = match layout {
                Layout::Lines => format!("answer=none\nsettled={}\n", yes_no(settled)),
                Layout::Tables => none_in_words(low, high, settled),
                Layout::Szs => szs::none(&sheet.path, low, high, settled),
            };
            print(text.as_bytes())?;
            Ok(NO)
        }
        Search::Stopped { size, .. } => {
            let text = match layout {
                Layout::Lines => format!("answer=stopped\nsize={size}\n"),
                Layout::Tables => stopped::in_words(low, size),
                Layout::Szs => szs::stopped(&sheet.path, size),
            };
            print(text.as_bytes())?;
            if let Engine::Clauses(options) = engine {
                eprintln!("nesskettle: {}", stopped::how_to_go_on(low, size, options));
            }
            Ok(STOPPED)
        }
    }
}

/// The sheet, what the search came to, and the room in which a case stands.
fn search(sheet: File, low: u64, high: u64, engine: Engine) -> Result<(File, Search, Room), Failure> {
    let room = Room::new(engine, &sheet.bytes, low, high);
    let mut room = room.map_err(|r| match (engine, r.reason) {
        (Engine::Clauses(options), Reason::TooManyInstances) => too_many_instances(&sheet, r, low, high, options),
        (Engine::Clauses(options), _) => named::refused(&sheet, r, options.terms, |terms| {
            let other = Engine::Clauses(FindOptions { terms, ..options });
            let highest = highest(other, &sheet.bytes, low, high)?;
            Some(if highest < high { up_to(highest) } else { String::new() })
        }),
        (Engine::Plain, Reason::TooManyCells) => sheet.refused(r).with(&fewer_cells(&sheet.bytes, low, high)),
        (Engine::Plain, _) => sheet.refused(r),
    })?;
    let search = if std::io::stderr().is_terminal() {
        find_by_size
    } else {
        Room::find
    };
    let search = search(&mut room, &sheet.bytes, low, high).map_err(|r| sheet.refused(r))?;
    Ok((sheet, search, room))
}

/// The constant clauses may be the ones that are too many.
fn too_many_instances(sheet: &File, refusal: Refusal, low: u64, high: u64, options: FindOptions) -> Failure {
    let failure = sheet.refused(refusal);
    let without = FindOptions {
        symmetry: Symmetry::Kept,
        ..options
    };
    if Room::new(Engine::Clauses(without), &sheet.bytes, low, high).is_ok() {
        failure.with("--no-symmetry takes this sheet: the constant clauses are not among its instances")
    } else {
        failure
    }
}

/// What to do about too many cells.
fn fewer_cells(sheet: &[u8], low: u64, high: u64) -> String {
    match highest(Engine::Plain, sheet, low, high) {
        Some(high) => format!("--plain takes this sheet{}", up_to(high)),
        None => format!("--plain does not take this sheet at size {low}"),
    }
}

/// The highest size up to which the search is taken, at most `high`. The library is asked.
fn highest(engine: Engine, sheet: &[u8], low: u64, high: u64) -> Option<u64> {
    let is_taken = |&high: &u64| Room::new(engine, sheet, low, high).is_ok();
    (low..=high.min(LARGEST)).rev().find(is_taken)
}

fn up_to(high: u64) -> String {
    format!(" up to --high {high}")
}

/// The search size by size, told on standard error. A size's answer, with what the sizes before have left of the allowance, is
/// the whole search's where these had no model. The last call is over all sizes again, so that the mark `settled` is the whole
/// search's too; the sizes before the last cost little beside it.
fn find_by_size(room: &mut Room, sheet: &[u8], low: u64, high: u64) -> Result<Search, Refusal> {
    let mut made = 0;
    for size in low..high {
        let search = told(size, || room.find_after(made, sheet, size, size))?;
        made += search.choices();
        if !matches!(search, Search::None { .. }) {
            return Ok(search.with_choices(made));
        }
    }
    told(high, || room.find(sheet, low, high))
}

/// One search, and on standard error what it came to at the size, and when.
fn told(size: u64, search: impl FnOnce() -> Result<Search, Refusal>) -> Result<Search, Refusal> {
    eprint!("size {size} .. ");
    let start = Instant::now();
    let search = search()?;
    let outcome = match search {
        Search::Found { .. } => "found",
        Search::None { .. } => "none",
        Search::Stopped { .. } => "stopped",
    };
    eprintln!("{outcome}, {:.2} s", start.elapsed().as_secs_f64());
    Ok(search)
}

fn found_tables(sheet: &[u8], size: u64, case: &[u8]) -> String {
    format!("found: a model of size {size}\n\n{}", tables::tables(sheet, case))
}

/// That there is none of these sizes.
pub fn no_model(low: u64, high: u64) -> String {
    if low == high {
        format!("no case of size {low} is a model")
    } else {
        format!("no case of a size from {low} to {high} is a model")
    }
}

fn none_in_words(low: u64, high: u64, settled: bool) -> String {
    let mark = if settled {
        "yes, no other size has a model either"
    } else {
        "no, another size may have a model"
    };
    format!("none: {}\nsettled: {mark}\n", no_model(low, high))
}

fn yes_no(yes: bool) -> &'static str {
    if yes {
        "yes"
    } else {
        "no"
    }
}
