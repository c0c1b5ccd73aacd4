//! The command `nesskettle` run on the sheets of `data/sheets`, and what is expected of it.

use std::io::Write;
use std::process::{Command, Output, Stdio};

/// Runs the command in `data/sheets` with this standard input.
pub fn run(arguments: &str, input: &str) -> Output {
    let mut child = Command::new(env!("CARGO_BIN_EXE_nesskettle"))
        .args(arguments.split(' ').filter(|word| !word.is_empty()))
        .current_dir(concat!(env!("CARGO_MANIFEST_DIR"), "/data/sheets"))
        .stdin(Stdio::piped())
        .stdout(Stdio::piped())
        .stderr(Stdio::piped())
        .spawn()
        .expect("the command starts");
    let _ = child.stdin.take().expect("it was piped").write_all(input.as_bytes());
    child.wait_with_output().expect("the command ends")
}

/// It prints this on standard output, nothing on standard error, and ends with this status.
pub fn prints(arguments: &str, input: &str, status: i32, text: &str) {
    let output = run(arguments, input);
    assert_eq!(String::from_utf8_lossy(&output.stdout), text, "{arguments}");
    assert_eq!(String::from_utf8_lossy(&output.stderr), "", "{arguments}");
    assert_eq!(output.status.code(), Some(status), "{arguments}");
}

/// It prints nothing on standard output, this on standard error, and ends with status 2.
pub fn fails(arguments: &str, input: &str, text: &str) {
    let output = run(arguments, input);
    assert_eq!(String::from_utf8_lossy(&output.stdout), "", "{arguments}");
    assert_eq!(String::from_utf8_lossy(&output.stderr), text, "{arguments}");
    assert_eq!(output.status.code(), Some(2), "{arguments}");
}
