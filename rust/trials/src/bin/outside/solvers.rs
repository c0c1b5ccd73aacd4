//! The outside solvers, run as programs on files.

use nesskettle_trials::dimacs::Dimacs;
use std::path::{Path, PathBuf};
use std::process::{Command, Output};

/// Seconds that a SAT solver has for one text, and milliseconds that cvc5 has for one sheet.
const SAT_SECONDS: &str = "20";
const CVC5_MILLISECONDS: &str = "1500";

#[derive(Clone, Copy)]
pub enum Solver {
    Minisat,
    Picosat,
    Cadical,
}

impl Solver {
    pub const ALL: [Solver; 3] = [Solver::Minisat, Solver::Picosat, Solver::Cadical];

    pub fn name(self) -> &'static str {
        match self {
            Solver::Minisat => "minisat",
            Solver::Picosat => "picosat",
            Solver::Cadical => "cadical",
        }
    }
}

/// What a SAT solver tells of a text.
pub struct Told {
    pub outcome: Outcome,
    /// The solver's own answer in the layout of the competitions; minisat's is put into it here.
    pub answer: Vec<u8>,
}

pub enum Outcome {
    /// The numbers that the solver makes true.
    Satisfiable(Vec<i32>),
    Unsatisfiable,
    Undecided,
}

/// The smallest model that cvc5 finds.
pub enum Smallest {
    Size(u64),
    None,
    Undecided,
    /// It does not take the text.
    Unread,
}

/// Where the files stand.
pub struct Solvers {
    folder: PathBuf,
}

impl Solvers {
    pub fn new() -> Self {
        let folder = std::env::temp_dir().join(format!("nesskettle-outside-{}", std::process::id()));
        std::fs::create_dir_all(&folder).expect("a folder for the files can be made");
        Solvers { folder }
    }

    pub fn run(&self, solver: Solver, dimacs: &Dimacs) -> Told {
        let file = self.folder.join("clauses.cnf");
        std::fs::write(&file, &dimacs.text).expect("the clauses can be written");
        let (output, answer) = match solver {
            Solver::Minisat => self.minisat(&file),
            Solver::Picosat => answered(Command::new("picosat").args(["-L", SAT_SECONDS]).arg(&file)),
            Solver::Cadical => answered(Command::new("cadical").args(["-t", SAT_SECONDS]).arg(&file)),
        };
        let outcome = match output.status.code() {
            Some(10) => Outcome::Satisfiable(numbers(&answer)),
            Some(20) => Outcome::Unsatisfiable,
            _ => Outcome::Undecided,
        };
        Told { outcome, answer }
    }

    /// How many settings satisfy the clauses, told by picosat; nothing where there are more than `most`.
    pub fn count(&self, dimacs: &Dimacs, most: usize) -> Option<usize> {
        let file = self.folder.join("clauses.cnf");
        std::fs::write(&file, &dimacs.text).expect("the clauses can be written");
        // picosat stops by itself where it has no more
        let pipe = format!("picosat --all \"$0\" | grep '^s' | head -n {}", most + 1);
        let output = output(Command::new("sh").args(["-c", &pipe]).arg(&file));
        let told = String::from_utf8_lossy(&output.stdout).into_owned();
        let count = told.lines().filter(|line| *line == "s SATISFIABLE").count();
        (count <= most).then_some(count)
    }

    /// minisat writes its answer into a file, in a layout of its own.
    fn minisat(&self, file: &Path) -> (Output, Vec<u8>) {
        let result = self.folder.join("result");
        let limit = format!("-cpu-lim={SAT_SECONDS}");
        let options = ["-verb=0", &limit];
        let output = output(Command::new("minisat").args(options).arg(file).arg(&result));
        let told = std::fs::read_to_string(&result).unwrap_or_default();
        (output, in_competition_layout(&told))
    }

    pub fn smallest_model(&self, tptp: &[u8]) -> Smallest {
        let file = self.folder.join("clauses.p");
        std::fs::write(&file, tptp).expect("the clauses can be written");
        let limit = format!("--tlimit={CVC5_MILLISECONDS}");
        // cvc5 tries the sizes in turn, but a clause that it splits into parts may lead it past the smallest
        let options = [
            "--lang=tptp",
            "--finite-model-find",
            "--miniscope-quant=off",
            "--dump-models",
            &limit,
        ];
        let output = output(Command::new("cvc5").args(options).arg(&file));
        smallest(&String::from_utf8_lossy(&output.stdout))
    }
}

impl Drop for Solvers {
    fn drop(&mut self) {
        let _ = std::fs::remove_dir_all(&self.folder);
    }
}

fn output(command: &mut Command) -> Output {
    command
        .output()
        .unwrap_or_else(|e| panic!("{:?} does not start: {e}", command.get_program()))
}

/// What a solver that prints the layout of the competitions says, and all that it printed.
fn answered(command: &mut Command) -> (Output, Vec<u8>) {
    let output = output(command);
    let answer = output.stdout.clone();
    (output, answer)
}

/// The line `SAT` and a line of numbers, or the line `UNSAT`, in the layout of the competitions.
fn in_competition_layout(told: &str) -> Vec<u8> {
    match told.strip_prefix("SAT\n") {
        // a 0 alone has a space before it
        Some(numbers) => format!("s SATISFIABLE\nv {}\n", numbers.trim()).into_bytes(),
        None => b"s UNSATISFIABLE\n".to_vec(),
    }
}

/// The numbers of an answer's `v` lines but for the 0 at their end.
fn numbers(answer: &[u8]) -> Vec<i32> {
    let answer = String::from_utf8_lossy(answer);
    let words = answer
        .lines()
        .filter_map(|line| line.strip_prefix("v "))
        .flat_map(|line| line.split(' '));
    let numbers = words.map(|word| word.parse().expect("a number"));
    numbers.filter(|&number| number != 0).collect()
}

/// cvc5 states the size of its model in a comment.
fn smallest(told: &str) -> Smallest {
    if told.contains("Parse Error") {
        return Smallest::Unread;
    }
    if told.contains("SZS status Unsatisfiable") {
        return Smallest::None;
    }
    let stated = told
        .lines()
        .find_map(|line| line.strip_prefix("; cardinality of $$unsorted is "));
    match stated.and_then(|number| number.trim().parse().ok()) {
        Some(size) if told.contains("SZS status Satisfiable") => Smallest::Size(size),
        _ => Smallest::Undecided,
    }
}
