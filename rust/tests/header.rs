//! `include/nesskettle.h` from C: `header.c` compiles without a warning, calls the library, and has the same layouts.

use nesskettle::raw::{ExplainAnswer, FindAnswer, JudgeAnswer, MergeAnswer, ReadAnswer, WriteAnswer};
use std::path::Path;
use std::process::Command;

#[test]
fn the_header_fits_the_library() {
    let package = Path::new(env!("CARGO_MANIFEST_DIR"));
    let program = Path::new(env!("CARGO_TARGET_TMPDIR")).join("header");
    let compiled = Command::new("cc")
        .args(["-std=c11", "-Wall", "-Wextra", "-Wpedantic", "-Werror", "-I"])
        .arg(package.join("../include"))
        .arg("-o")
        .arg(&program)
        .arg(package.join("tests/header.c"))
        .arg(env!("NESSKETTLE_ARCHIVE"))
        .args(["-lpthread", "-ldl", "-lm", "-lgcc_s"])
        .status()
        .expect("there is a C compiler");
    assert!(compiled.success(), "header.c does not compile");
    let output = Command::new(&program).output().expect("the program starts");
    let sizes = [
        size_of::<ReadAnswer>(),
        size_of::<JudgeAnswer>(),
        size_of::<ExplainAnswer>(),
        size_of::<WriteAnswer>(),
        size_of::<FindAnswer>(),
        size_of::<MergeAnswer>(),
    ];
    let expected = sizes.map(|size| size.to_string()).join(" ") + "\n";
    assert_eq!(String::from_utf8_lossy(&output.stdout), expected);
    assert!(output.status.success());
}
