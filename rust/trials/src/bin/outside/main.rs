//! Nesskettle against outside solvers: minisat, picosat and cadical on the clauses that Write leaves, cvc5 on the sheet's
//! own clauses as TPTP text, and on TPTP texts that both read by themselves. `tests/outside/run` builds and runs this.
//!
//! Checked for each sheet and size:
//! - a solver satisfies the clauses exactly if Find finds a model of that size;
//! - a solver's assignment, as a setting, is read back as a case that Judge calls a model, and whose setting it is;
//! - the solver's own answer is read as that case, or as its claim that there is none;
//! - no model comes before the found one: with the cells before some cell as found, no smaller value of that cell is
//!   satisfiable, and with all cells as found the clauses are;
//!
//! for each sheet that the smallest size found is cvc5's, and that cvc5 finds no model at all where none is settled; and
//! for each TPTP text that what Find says of the sheet left is what cvc5 says of the text: whether there is a model, and
//! its smallest size.
//!
//! The same of the clauses with constant clauses, and that they are satisfied exactly if those without are; the model found
//! with them is the least of those that obey them.
//!
//! The same of sheets with named terms, those among them that are refused as they are written too: solvers on the clauses
//! that Write leaves, Find, Read back, leastness, cvc5 on the sheet's own clauses; and where terms as written are taken as
//! well, both texts are satisfied by equally many settings.
//!
//! Last the pipes from the written clauses through cadical to a case, with the command.

mod pipe;
mod sheet;
mod solvers;

use nesskettle::Terms::{self, AsWritten, Named};
use nesskettle::{FindOptions, Reason, Search, SolverAnswer, WriteOptions};
use nesskettle_trials::buffers::left;
use nesskettle_trials::constants;
use nesskettle_trials::dimacs::Dimacs;
use nesskettle_trials::draft::{Draft, BROAD, SMALL};
use nesskettle_trials::fixed;
use nesskettle_trials::options::{asked, not_asked, told_no, told_yes};
use nesskettle_trials::problems;
use nesskettle_trials::random::Random;
use nesskettle_trials::solver::stating;
use nesskettle_trials::tptp::clauses::{statements, KNOWN};
use nesskettle_trials::tptp::layout;
use nesskettle_trials::truth::is_model;
use sheet::{Cell, Sheet};
use solvers::{Outcome, Smallest, Solver, Solvers, Told};
use std::process::ExitCode;

/// How many sheets are generated, how many with several constants, how many TPTP texts, and how many sheets with named terms.
const GENERATED: usize = 500;
const GENERATED_CONSTANTS: usize = 100;
const GENERATED_TPTP: usize = 500;
const GENERATED_NAMED: usize = 250;
/// The largest size of a generated sheet, and of a named problem.
const TOP: u64 = 4;
const NAMED_TOP: u64 = 6;
/// That of a generated sheet with named terms.
const NAMED_TERMS_TOP: u64 = 3;
/// The largest number of settings that are counted.
const COUNTED: usize = 500;
/// Sizes with more instances are left out, and so are searches with more choices.
const INSTANCES: u64 = 50_000;
const CHOICES: u64 = 20_000;

fn main() -> ExitCode {
    let mut trial = Trial {
        solvers: Solvers::new(),
        passed: 0,
        failed: 0,
        undecided: 0,
        settled: 0,
        incomplete: 0,
        named: 0,
        named_alone: 0,
        counted: 0,
        moved: 0,
        smallest: [0; 9],
    };
    for problem in problems::ALL {
        trial.sheet(problem.sheet, NAMED_TOP, AsWritten);
    }
    for example in EXAMPLES {
        trial.sheet(example.as_bytes(), TOP, AsWritten);
    }
    for round in 0..GENERATED_CONSTANTS {
        let terms = if round % 2 == 0 { AsWritten } else { Named };
        trial.sheet(&constants::ordinary(&mut Random::new(round as u64)).sheet(), TOP, terms);
    }
    let mut random = Random::new(8);
    for round in 0..GENERATED {
        let style = if round % 4 == 0 { BROAD } else { SMALL };
        trial.sheet(&Draft::random(&mut random, style).sheet(), TOP, AsWritten);
    }
    for example in TPTP_EXAMPLES {
        trial.tptp(example);
    }
    for round in 0..GENERATED_TPTP {
        let style = if round % 4 == 0 { BROAD } else { SMALL };
        let draft = Draft::random(&mut random, style);
        let statements = statements(&mut random, &draft, KNOWN);
        trial.tptp(&layout::free(&mut random, &statements));
    }
    trial.sheet(COUNTER, TOP, Named);
    for problem in problems::ALL {
        trial.sheet(problem.sheet, TOP, Named);
    }
    for round in 0..GENERATED_NAMED {
        let mut sheet = fixed::ordinary(&mut random).sheet();
        while round % 4 == 0 && (!is_taken(&sheet, Named) || is_taken(&sheet, AsWritten)) {
            sheet = fixed::ordinary(&mut random).sheet();
        }
        trial.sheet(&sheet, NAMED_TERMS_TOP, Named);
    }
    for (holds, what) in pipe::checks() {
        trial.note(holds, &what);
    }
    let sizes = (1..=NAMED_TOP as usize).map(|size| format!("{} at {size}", trial.smallest[size]));
    println!(
        "smallest models: {}, none {}; settled and cvc5 finds none either: {}",
        sizes.collect::<Vec<_>>().join(", "),
        trial.smallest[0],
        trial.settled
    );
    println!("minisat left variables out of {} answers", trial.incomplete);
    println!(
        "with named terms: {} sheets, {} of them not as written; {} pairs of texts with equally many settings",
        trial.named, trial.named_alone, trial.counted
    );
    println!("with constant clauses: another least model {} times", trial.moved);
    println!("cvc5 left {} sheets and texts undecided in its time", trial.undecided);
    println!("{} passed, {} failed", trial.passed, trial.failed);
    ExitCode::from((trial.failed > 0) as u8)
}

/// The specification's examples, as sheets, and one whose last predicate stands in no clause.
const EXAMPLES: [&str; 8] = [
    "sheet=1\nfuns=3\nfun=a/0\nfun=b/0\nfun=f/2\npreds=1\npred=p/2\nclauses=1\nclause=+ p f a b f b a\n",
    "sheet=1\nfuns=0\npreds=0\nclauses=1\nclause=+ = A B\n",
    "sheet=1\nfuns=0\npreds=0\nclauses=1\nclause=- = A B\n",
    "sheet=1\nfuns=0\npreds=0\nclauses=1\nclause=\n",
    "sheet=1\nfuns=0\npreds=0\nclauses=0\n",
    "sheet=1\nfuns=1\nfun=f/1\npreds=0\nclauses=1\nclause=- = f A A\n",
    "sheet=1\nfuns=1\nfun=a/0\npreds=1\npred=p/1\nclauses=2\nclause=+ p a\nclause=- p A + = A a\n",
    "sheet=1\nfuns=0\npreds=2\npred=p/0\npred=q/1\nclauses=1\nclause=+ p\n",
];

/// Terms that are refused as written.
const COUNTER: &[u8] = include_bytes!("../../../../../examples/counter.sheet");

/// The clinic's rules.
const TPTP_EXAMPLES: [&[u8]; 2] = [
    include_bytes!("../../../../../examples/both-eyes.p"),
    include_bytes!("../../../../../examples/each-eye.p"),
];

struct Trial {
    solvers: Solvers,
    passed: usize,
    failed: usize,
    undecided: usize,
    settled: usize,
    /// How many answers left variables out.
    incomplete: usize,
    /// How many sheets are taken with named terms, how many of them not as written, and how many pairs of texts are counted.
    named: usize,
    named_alone: usize,
    counted: usize,
    /// How many sizes of sheets have another least model with constant clauses.
    moved: usize,
    /// How many sheets and texts have their smallest model at each size; at 0 those that have none.
    smallest: [usize; 9],
}

impl Trial {
    /// All checks of one sheet at the sizes up to `top`. A sheet that is refused is left out.
    fn sheet(&mut self, bytes: &[u8], top: u64, terms: Terms) {
        if !is_taken(bytes, terms) {
            return;
        }
        if terms == Named {
            self.named += 1;
            self.named_alone += usize::from(!is_taken(bytes, AsWritten));
        }
        let sheet = Sheet::new(bytes);
        let mut smallest = None;
        let mut searched = 0;
        for size in (1..=top).take_while(|&size| manageable(bytes, size, terms)) {
            searched = size;
            let found = self.size(&sheet, size, terms);
            if found && smallest.is_none() {
                smallest = Some(size);
            }
        }
        self.smallest_size(&sheet, &sheet.tptp(), searched, smallest, terms);
    }

    /// The checks of one TPTP text, which cvc5 reads by itself. A text that is refused is left out.
    fn tptp(&mut self, tptp: &[u8]) {
        let refused = nesskettle::from_tptp(tptp, &mut []).expect_err("no sheet is empty");
        if refused.reason != Reason::OutputTooShort {
            return;
        }
        let sheet = Sheet::new(&text(|output| nesskettle::from_tptp(tptp, output)));
        let sizes = (1..=TOP).take_while(|&size| manageable(&sheet.bytes, size, AsWritten));
        let searched = sizes.last().unwrap_or(0);
        let smallest = (1..=searched).find(|&size| find(&sheet.bytes, size, size, told_yes(AsWritten)).is_ok());
        self.smallest_size(&sheet, tptp, searched, smallest, AsWritten);
    }

    /// The checks at one size; whether a model was found.
    fn size(&mut self, sheet: &Sheet, size: u64, terms: Terms) -> bool {
        let dimacs = written(sheet, size, not_asked(terms));
        let found = find(&sheet.bytes, size, size, told_no(terms));
        self.solvers_agree(sheet, size, terms, &dimacs, found.is_ok());
        if terms == Named {
            self.equally_many(sheet, size, &dimacs);
        }
        if let Ok(case) = &found {
            let is_least = self.is_least(sheet, size as usize, &dimacs, case);
            self.check(is_least, sheet, size, "the found model is the least");
        }
        self.with_constant_clauses(sheet, size, terms, &found);
        found.is_ok()
    }

    /// The same with constant clauses, and that they take no size its models. Where the case is the one without them, it is
    /// the least that obeys them if it obeys them.
    fn with_constant_clauses(&mut self, sheet: &Sheet, size: u64, terms: Terms, without: &Result<Vec<u8>, Settled>) {
        let dimacs = written(sheet, size, asked(terms));
        let found = find(&sheet.bytes, size, size, told_yes(terms));
        self.check(
            found.is_ok() == without.is_ok(),
            sheet,
            size,
            "Find with constant clauses",
        );
        self.solvers_agree(sheet, size, terms, &dimacs, found.is_ok());
        if let Ok(case) = &found {
            let is_least = if found == *without {
                self.satisfies(&dimacs, &as_found(sheet, size as usize, case))
            } else {
                self.moved += 1;
                self.is_least(sheet, size as usize, &dimacs, case)
            };
            self.check(
                is_least,
                sheet,
                size,
                "the found model is the least that obeys the constant clauses",
            );
        }
    }

    /// The solvers satisfy the clauses exactly if a model was found, and what they answer is one.
    fn solvers_agree(&mut self, sheet: &Sheet, size: u64, terms: Terms, dimacs: &Dimacs, is_found: bool) {
        for solver in Solver::ALL {
            let told = self.solvers.run(solver, dimacs);
            let satisfiable = matches!(told.outcome, Outcome::Satisfiable(_));
            let decided = !matches!(told.outcome, Outcome::Undecided);
            self.check(decided && satisfiable == is_found, sheet, size, solver.name());
            if terms == AsWritten {
                let is_read = self.reads_answer(sheet, size, dimacs, &told);
                self.check(is_read, sheet, size, &format!("{}'s own answer", solver.name()));
            }
            if let Outcome::Satisfiable(numbers) = told.outcome {
                let is_model = reads_back_as_model(sheet, size, &dimacs.setting(&numbers), terms);
                self.check(is_model, sheet, size, &format!("{}'s assignment", solver.name()));
            }
        }
    }

    /// As many settings satisfy the clauses with named terms as satisfy those of terms as written, where these are taken.
    fn equally_many(&mut self, sheet: &Sheet, size: u64, named: &Dimacs) {
        if !manageable(&sheet.bytes, size, AsWritten) {
            return;
        }
        let written = written(sheet, size, not_asked(AsWritten));
        let Some(count) = self.solvers.count(&written, COUNTED) else {
            return;
        };
        self.counted += 1;
        let same = self.solvers.count(named, COUNTED) == Some(count);
        self.check(same, sheet, size, &format!("{count} settings of terms as written"));
    }

    /// The solver's own answer is the case of its assignment, or a claim that there is none.
    ///
    /// minisat leaves out the variables above the largest one that stands in a clause. Such an answer is refused, and taken
    /// once they are put in; they may be either, and are no here.
    fn reads_answer(&mut self, sheet: &Sheet, size: u64, dimacs: &Dimacs, told: &Told) -> bool {
        let read = |answer: &[u8], output: &mut [u8]| nesskettle::from_solver(&sheet.bytes, size, answer, output);
        let numbers = match &told.outcome {
            Outcome::Undecided => return false,
            Outcome::Unsatisfiable => return read(&told.answer, &mut []) == Ok(SolverAnswer::ClaimedNone),
            Outcome::Satisfiable(numbers) => numbers,
        };
        let setting = dimacs.setting(numbers);
        let case = text(|output| nesskettle::read_back(&sheet.bytes, size, AsWritten, &setting, output));
        let is_case = |answer: &[u8]| {
            let mut output = vec![0; case.len()];
            let length = case.len();
            read(answer, &mut output) == Ok(SolverAnswer::Case { length }) && output == case
        };
        if numbers.len() == dimacs.variables {
            return is_case(&told.answer);
        }
        self.incomplete += 1;
        let refused = read(&told.answer, &mut []).is_err_and(|refusal| refusal.reason == Reason::BadAnswer);
        refused && is_case(&stating(&mut Random::new(9), &setting))
    }

    /// Asks a solver, for each cell of the found model that could be smaller, for a model with the cells before as found
    /// and this one smaller; and at last for the found model itself.
    fn is_least(&mut self, sheet: &Sheet, size: usize, dimacs: &Dimacs, case: &[u8]) -> bool {
        let mut as_found = Vec::new();
        for (cell, solver) in sheet.cells(size, case).iter().zip(Solver::ALL.into_iter().cycle()) {
            if let Some(smaller) = cell.smaller() {
                let units = [as_found.as_slice(), &smaller].concat();
                if !matches!(
                    self.solvers.run(solver, &dimacs.with_units(&units)).outcome,
                    Outcome::Unsatisfiable
                ) {
                    return false;
                }
            }
            as_found.push(cell.as_found());
        }
        self.satisfies(dimacs, &as_found)
    }

    /// Can the clauses be satisfied with these numbers true?
    fn satisfies(&mut self, dimacs: &Dimacs, numbers: &[i32]) -> bool {
        let told = self.solvers.run(Solver::Minisat, &dimacs.with_units(numbers));
        matches!(told.outcome, Outcome::Satisfiable(_))
    }

    /// cvc5's smallest model of the TPTP text against the sizes of the sheet that were searched, from 1 on.
    fn smallest_size(&mut self, sheet: &Sheet, tptp: &[u8], searched: u64, smallest: Option<u64>, terms: Terms) {
        self.smallest[smallest.unwrap_or(0) as usize] += 1;
        if searched == 0 {
            return;
        }
        let whole = find(&sheet.bytes, 1, searched, told_yes(terms));
        self.check(
            whole.as_ref().ok().map(|case| sheet::size(case)) == smallest,
            sheet,
            searched,
            "Find over all sizes and size by size",
        );
        let agrees = match self.solvers.smallest_model(tptp) {
            Smallest::Undecided => {
                self.undecided += 1;
                return;
            }
            Smallest::Unread => false,
            Smallest::Size(n) if n <= searched => smallest == Some(n),
            Smallest::Size(_) => whole == Err(Settled(false)),
            Smallest::None => {
                self.settled += usize::from(whole == Err(Settled(true)));
                whole.is_err()
            }
        };
        let what = format!("cvc5's smallest model of\n{}", tptp.escape_ascii());
        self.check(agrees, sheet, searched, &what);
    }

    fn check(&mut self, holds: bool, sheet: &Sheet, size: u64, what: &str) {
        let sheet = String::from_utf8_lossy(&sheet.bytes);
        self.note(holds, &format!("at size {size}: {what}\n{sheet}"));
    }

    fn note(&mut self, holds: bool, what: &str) {
        if holds {
            self.passed += 1;
        } else {
            self.failed += 1;
            println!("FAILED {what}");
        }
    }
}

/// The setting is read back as a model of the sheet as it was handed in; of terms as written Judge says so, and the setting
/// is that of the case.
fn reads_back_as_model(sheet: &Sheet, size: u64, setting: &[u8], terms: Terms) -> bool {
    let case = text(|output| nesskettle::read_back(&sheet.bytes, size, terms, setting, output));
    match terms {
        Named => is_model(&Draft::of_sheet(&sheet.bytes), &case),
        AsWritten => {
            let again = text(|output| nesskettle::setting(&sheet.bytes, &case, output));
            nesskettle::judge(&sheet.bytes, &case) == Ok(true) && again == setting
        }
    }
}

/// Is it a sheet, with terms taken so?
fn is_taken(sheet: &[u8], terms: Terms) -> bool {
    let refusal = nesskettle::write(sheet, 1, not_asked(terms), &mut []).expect_err("no text is empty");
    refusal.reason == Reason::OutputTooShort
}

/// Is the sheet small enough at this size? The reference says, so that no check waits for a long search.
fn manageable(sheet: &[u8], size: u64, terms: Terms) -> bool {
    let few =
        nesskettle_reference::instances_and_variables(sheet, size, not_asked(terms)).is_ok_and(|(i, _)| i <= INSTANCES);
    let quick = || {
        let options = FindOptions {
            allowance: CHOICES,
            ..told_no(terms)
        };
        let (work, output) = nesskettle_reference::needed(sheet, size, options).expect("the sheet is accepted");
        let (mut work, mut output) = (vec![0; work as usize], vec![0; output as usize]);
        let search = nesskettle_reference::find(sheet, size, size, options, &mut work, &mut output);
        !matches!(search.expect("the room is enough"), Search::Stopped { .. })
    };
    few && quick()
}

/// The clauses that Write leaves.
fn written(sheet: &Sheet, size: u64, options: WriteOptions) -> Dimacs {
    Dimacs::new(text(|output| nesskettle::write(&sheet.bytes, size, options, output)))
}

/// The numbers that are true exactly if the cells are as in the case.
fn as_found(sheet: &Sheet, size: usize, case: &[u8]) -> Vec<i32> {
    sheet.cells(size, case).iter().map(Cell::as_found).collect()
}

/// The text of a call that writes one and is not refused.
fn text(call: impl FnMut(&mut [u8]) -> Result<usize, nesskettle::Refusal>) -> Vec<u8> {
    left(call).unwrap_or_else(|refusal| panic!("{refusal}"))
}

/// The mark of a search that found none.
#[derive(PartialEq, Eq)]
struct Settled(bool);

/// The found case, if there is one.
fn find(sheet: &[u8], low: u64, high: u64, options: FindOptions) -> Result<Vec<u8>, Settled> {
    let (mut work, mut output) = (Vec::new(), Vec::new());
    loop {
        match nesskettle::find(sheet, low, high, options, &mut work, &mut output) {
            Ok(Search::Found { length, .. }) => return Ok(output[..length].to_vec()),
            Ok(Search::None { settled, .. }) => return Err(Settled(settled)),
            Ok(Search::Stopped { .. }) => panic!("a search of few choices is stopped"),
            Err(refusal) if refusal.reason == Reason::WorkTooShort => work = vec![0; refusal.needed as usize],
            Err(refusal) if refusal.needed > 0 => output = vec![0; refusal.needed as usize],
            Err(refusal) => panic!("{refusal}"),
        }
    }
}
