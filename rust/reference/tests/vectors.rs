//! The reference answers every stored vector as stored.

use nesskettle_reference::{explainer, program, vectors, OPERATIONS};

#[test]
fn the_operations_answer_as_stored() {
    let mut count = 0;
    for (line, vector) in (1..).zip(vectors::stored()) {
        if vector.program().is_none() {
            vectors::run(&OPERATIONS, &vector).unwrap_or_else(|e| panic!("vector {line}: {e}"));
            count += 1;
        }
    }
    assert!(count > 6000, "only {count} vectors");
}

#[test]
fn the_programs_print_as_stored() {
    for (line, vector) in (1..).zip(vectors::stored()) {
        let program = match vector.program() {
            Some("finder") => program,
            Some("explainer") => explainer,
            _ => continue,
        };
        let printed = program(vector.inputs.bytes("stdin"));
        assert_eq!(printed, vector.answer.bytes("stdout"), "vector {line}");
    }
}
