//! The way for large protocols, as README shows it: clauses, SAT solver, case, in one pipe with the command; with named terms
//! the solver's answer is made a setting on the way.

use nesskettle_trials::draft::Draft;
use nesskettle_trials::truth::is_model;
use std::path::{Path, PathBuf};
use std::process::{Command, Output};

/// A sheet, a size, and whether it has a model of that size.
const SHEETS: [(&str, u64, bool); 5] = [
    ("examples/both-eyes.sheet", 3, true),
    ("examples/both-eyes.p", 3, true),
    ("examples/both-eyes.sheet", 2, false),
    ("rust/data/sheets/group.sheet", 6, true),
    ("rust/data/sheets/steiner.sheet", 7, true),
];

/// A sheet and a size of which it has a model, the first of them taken with named terms alone.
const NAMED: [(&str, u64); 3] = [
    ("examples/counter.sheet", 3),
    ("examples/both-eyes.sheet", 3),
    ("rust/data/sheets/group.sheet", 6),
];

/// The solvers whose answers are made settings.
const SOLVERS: [&str; 2] = ["cadical -q", "picosat"];

/// The exit status where the solver claims that there is none.
const CLAIMED_NONE: i32 = 3;

/// Whether each sheet's pipe ends as it must, and its name.
pub fn checks() -> Vec<(bool, String)> {
    let mut checks = Vec::new();
    for (sheet, size, has_model) in SHEETS {
        for option in ["", "--symmetry"] {
            let name = format!("the pipe of {sheet} at {size} {option}");
            checks.push((ends_right(sheet, size, option, has_model), name));
        }
    }
    for (sheet, size) in NAMED {
        for solver in SOLVERS {
            let name = format!("the pipe of {sheet} at {size} through {solver} with named terms");
            checks.push((reads_back(sheet, size, solver), name));
        }
    }
    checks
}

fn ends_right(sheet: &str, size: u64, option: &str, has_model: bool) -> bool {
    let pipe = format!(
        "$0 clauses {sheet} --size {size} {option} | cadical -q | $0 from-solver {sheet} --size {size} - > $1; \
         status=$?; $0 judge {sheet} $1 2> /dev/null; exit $status"
    );
    let case = std::env::temp_dir().join(format!("nesskettle-pipe-{}", std::process::id()));
    let output = run(&pipe, &[&case]);
    let printed = std::fs::read_to_string(&case).unwrap_or_default();
    let _ = std::fs::remove_file(&case);
    let status = output.status.code();
    if has_model {
        status == Some(0) && output.stdout == b"yes\n"
    } else {
        status == Some(CLAIMED_NONE) && printed.starts_with("claimed none: the solver says ")
    }
}

/// The case that is printed is a model of the sheet as it was handed in. Judge does not take every such sheet.
fn reads_back(sheet: &str, size: u64, solver: &str) -> bool {
    let pipe = format!(
        "$0 clauses {sheet} --size {size} --named | {solver} | grep '^v' | tr ' ' '\\n' |
         sed -n 's/^-.*/0/p; s/^[1-9].*/1/p' | $0 read-back {sheet} --size {size} --named -"
    );
    let output = run(&pipe, &[]);
    let sheet = std::fs::read(repository().join(sheet)).expect("the sheet is there");
    output.status.success() && is_model(&Draft::of_sheet(&sheet), &output.stdout)
}

/// Runs the pipe at the top of the repository, the command being `$0`.
fn run(pipe: &str, arguments: &[&PathBuf]) -> Output {
    let command = std::env::current_exe().expect("it runs").with_file_name("nesskettle");
    Command::new("sh")
        .current_dir(repository())
        .args(["-c", pipe])
        .arg(&command)
        .args(arguments)
        .output()
        .expect("a shell starts")
}

fn repository() -> PathBuf {
    Path::new(env!("CARGO_MANIFEST_DIR")).join("../..")
}
