//! Times searches that end in none, without and with constant clauses: Find, and minisat, picosat and cadical on the clauses
//! that Write leaves with the same switch, in one run. Each time is that of the whole: Find's has the making of the clauses in
//! it, the others' the reading of the text.
//!
//!     cargo run --release -p nesskettle-trials --bin symmetry [RUNS]

use nesskettle::{FindOptions, Search, Symmetry, Terms, WriteOptions};
use nesskettle_reference as reference;
use nesskettle_trials::buffers::left;
use nesskettle_trials::options::told;
use nesskettle_trials::problems::sheet;
use std::path::Path;
use std::process::Command;
use std::time::Instant;

/// How many times each measurement is taken where the command line does not say; the fastest counts.
const RUNS: usize = 3;

/// The seconds that a solver has, and what it ends with where it says that there is none.
const LIMIT: &str = "100";
const UNSATISFIABLE: i32 = 20;

const SOLVERS: [(&str, &[&str]); 3] = [
    ("minisat", &["-verb=0"]),
    ("picosat", &["-n"]),
    ("cadical", &["-q", "-n"]),
];

fn main() {
    let runs = std::env::args().nth(1).and_then(|n| n.parse().ok()).unwrap_or(RUNS);
    let file = std::env::temp_dir().join(format!("nesskettle-symmetry-{}.cnf", std::process::id()));
    println!("seconds of searches that end in none, without and with constant clauses");
    print!("{:<26}{:>20}", "", "nesskettle");
    println!("{}", SOLVERS.map(|(name, _)| format!("{name:>20}")).concat());
    for (name, size) in [
        ("group", 5),
        ("group", 7),
        ("exponent-2", 7),
        ("exponent-2", 8),
        ("lattice", 4),
        ("pigeonhole", 8),
        ("all-different", 8),
    ] {
        row(name, size, runs, &file);
    }
    let _ = std::fs::remove_file(&file);
}

fn row(name: &str, size: u64, runs: usize, file: &Path) {
    let mut columns = vec![Vec::new(); 1 + SOLVERS.len()];
    for symmetry in [Symmetry::Kept, Symmetry::Reduced] {
        let terms = Terms::AsWritten;
        columns[0].push(shown(find(sheet(name), size, told(terms, symmetry), runs)));
        let options = WriteOptions { terms, symmetry };
        let text = left(|output| nesskettle::write(sheet(name), size, options, output)).expect("it is written");
        std::fs::write(file, text).expect("the clauses can be written");
        for (column, (solver, options)) in columns[1..].iter_mut().zip(SOLVERS) {
            let times: Option<Vec<f64>> = (0..runs).map(|_| solve(solver, options, file)).collect();
            column.push(times.map_or(format!("over {LIMIT}"), |times| shown(fastest(times))));
        }
    }
    let columns = columns.iter().map(|times| format!("{:>20}", times.join(" ")));
    println!(
        "{:<26}{}",
        format!("{name} at size {size}"),
        columns.collect::<String>()
    );
}

fn shown(seconds: f64) -> String {
    format!("{seconds:>9.3}")
}

fn fastest(times: Vec<f64>) -> f64 {
    times.into_iter().fold(f64::MAX, f64::min)
}

fn find(sheet: &[u8], size: u64, options: FindOptions, runs: usize) -> f64 {
    let (work, output) = reference::needed(sheet, size, options).expect("it is a sheet");
    let (mut work, mut output) = (vec![0; work as usize], vec![0; output as usize]);
    let mut search = || {
        let start = Instant::now();
        let answer = nesskettle::find(sheet, size, size, options, &mut work, &mut output);
        assert!(matches!(answer, Ok(Search::None { settled: false, .. })));
        start.elapsed().as_secs_f64()
    };
    fastest((0..runs).map(|_| search()).collect())
}

/// The seconds that a solver takes to say that there is none; nothing where they are over.
fn solve(name: &str, options: &[&str], file: &Path) -> Option<f64> {
    let start = Instant::now();
    let mut command = Command::new("timeout");
    let output = command.arg(LIMIT).arg(name).args(options).arg(file).output();
    let code = output.expect("it starts").status.code();
    (code == Some(UNSATISFIABLE)).then(|| start.elapsed().as_secs_f64())
}
