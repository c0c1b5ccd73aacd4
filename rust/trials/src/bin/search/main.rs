//! Times the search of Find beside a plain Rust program of the same design, and beside minisat and picosat, on the same
//! clauses, in one run. minisat and picosat learn clauses and so make other and often fewer propagations; the plain
//! program takes the very steps of Find, so the ratio of the times is that of propagations per second. Each
//! time is that of the whole: Find's has the making of the clauses in it, the others' the reading of the text.
//!
//!     cargo run --release -p nesskettle-trials --bin search [RUNS]

mod plain;

use nesskettle::Terms::AsWritten;
use nesskettle_reference as reference;
use nesskettle_trials::buffers::left;
use nesskettle_trials::options::{not_asked, told_no};
use nesskettle_trials::problems::sheet;
use plain::Plain;
use std::path::Path;
use std::process::Command;
use std::time::Instant;

/// How many times each measurement is taken where the command line does not say; the fastest counts.
const RUNS: usize = 3;

fn main() {
    let runs = std::env::args().nth(1).and_then(|n| n.parse().ok()).unwrap_or(RUNS);
    let file = std::env::temp_dir().join(format!("nesskettle-search-{}.cnf", std::process::id()));
    println!(
        "million propagations per second, and seconds; the ratio is nesskettle's speed to that of the plain program"
    );
    println!(
        "{:<26}{:>13}{:>18}{:>18}{:>8}{:>18}{:>18}",
        "", "propagations", "nesskettle", "plain", "ratio", "minisat", "picosat"
    );
    for (name, size) in [
        ("group", 5),
        ("group", 6),
        ("exponent-2", 6),
        ("quasigroup-3", 7),
        ("quasigroup-3", 8),
        ("pigeonhole", 8),
        ("lattice", 5),
    ] {
        row(name, size, runs, &file);
    }
    let _ = std::fs::remove_file(&file);
}

fn row(name: &str, size: u64, runs: usize, file: &Path) {
    let sheet = sheet(name);
    let text = left(|output| nesskettle::write(sheet, size, not_asked(AsWritten), output)).expect("it is written");
    std::fs::write(file, &text).expect("the clauses can be written");
    let (work, output) = reference::needed(sheet, size, told_no(AsWritten)).expect("it is a sheet");
    let (mut work, mut output) = (vec![0; work as usize], vec![0; output as usize]);
    let first = first_values(sheet, size, &text);
    let (mut library, mut plain, mut propagations) = (f64::MAX, f64::MAX, 0);
    for _ in 0..runs {
        let start = Instant::now();
        let answer =
            nesskettle::find(sheet, size, size, told_no(AsWritten), &mut work, &mut output).expect("it is searched");
        library = library.min(start.elapsed().as_secs_f64());
        let start = Instant::now();
        let mut search = Plain::new(&text, first.clone());
        let found = search.solve();
        plain = plain.min(start.elapsed().as_secs_f64());
        propagations = search.propagations;
        assert_eq!(
            found,
            matches!(answer, nesskettle::Search::Found { .. }),
            "{name} at {size}"
        );
    }
    println!(
        "{:<26}{propagations:>13}{:>18}{:>18}{:>8.2}{:>18}{:>18}",
        format!("{name} at size {size}"),
        speed(propagations, library),
        speed(propagations, plain),
        plain / library,
        solver("minisat", &["-verb=1"], file),
        solver("picosat", &["-v"], file),
    );
}

fn speed(propagations: u64, seconds: f64) -> String {
    format!("{:.1} ({seconds:.3} s)", propagations as f64 / seconds / 1e6)
}

/// Yes first for the variables of functions, which come first.
fn first_values(sheet: &[u8], size: u64, text: &[u8]) -> Vec<bool> {
    let sheet = std::str::from_utf8(sheet).expect("ASCII");
    let arities = sheet.lines().filter(|line| line.starts_with("fun=")).map(|line| {
        let digit = line.as_bytes()[line.len() - 1];
        (digit - b'0') as u32
    });
    let functions: u64 = arities.map(|arity| size.pow(arity + 1)).sum();
    let header = text.split(|&b| b == b' ').nth(2).expect("the header has two counts");
    let variables: u64 = std::str::from_utf8(header).expect("ASCII").parse().expect("a number");
    (0..variables).map(|x| x < functions).collect()
}

/// What a solver says of itself: its propagations per second and its seconds.
fn solver(name: &str, options: &[&str], file: &Path) -> String {
    let start = Instant::now();
    let Ok(output) = Command::new("timeout")
        .arg("60")
        .arg(name)
        .args(options)
        .arg(file)
        .output()
    else {
        return "-".to_string();
    };
    let seconds = start.elapsed().as_secs_f64();
    let said = String::from_utf8_lossy(&output.stdout).into_owned() + &String::from_utf8_lossy(&output.stderr);
    let line = said.lines().find(|line| line.contains("propagations"));
    let number = line.and_then(|line| line.split_whitespace().find_map(|word| word.parse::<u64>().ok()));
    match number {
        Some(propagations) => speed(propagations, seconds),
        None => format!("? ({seconds:.3} s)"),
    }
}
