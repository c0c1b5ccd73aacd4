//! The proved library answers every stored vector as stored, and so do the programs.

use nesskettle_reference::vectors;
use std::io::Write;
use std::path::Path;
use std::process::{Command, Stdio};

#[test]
fn the_operations_answer_as_stored() {
    for (line, vector) in (1..).zip(vectors::stored()) {
        if vector.program().is_none() {
            vectors::run(&nesskettle::OPERATIONS, &vector).unwrap_or_else(|e| panic!("vector {line}: {e}"));
        }
    }
}

#[test]
fn the_finder_prints_as_stored() {
    prints_as_stored("finder");
}

#[test]
fn the_explainer_prints_as_stored() {
    prints_as_stored("explainer");
}

fn prints_as_stored(name: &str) {
    let crates = Path::new(env!("CARGO_MANIFEST_DIR")).join("../../crates");
    let program = crates.join(name).join("out").join(name);
    if !program.is_file() {
        eprintln!(
            "left out: {} is missing (`rt run` in crates/{name} writes it, and `rt ci` at the top)",
            program.display()
        );
        return;
    }
    for (line, vector) in (1..).zip(vectors::stored()) {
        if vector.program() == Some(name) {
            let printed = run(&program, vector.inputs.bytes("stdin"));
            assert_eq!(printed, vector.answer.bytes("stdout"), "vector {line}");
        }
    }
}

/// What the program prints. It may stop reading before its input ends.
fn run(program: &Path, input: &[u8]) -> Vec<u8> {
    let mut child = Command::new(program)
        .stdin(Stdio::piped())
        .stdout(Stdio::piped())
        .spawn()
        .expect("the program starts");
    let _ = child.stdin.take().expect("it was piped").write_all(input);
    child.wait_with_output().expect("the program ends").stdout
}
