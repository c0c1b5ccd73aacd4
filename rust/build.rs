//! Links the proved library, `crates/exports/out/libexports.a` of the repository.
//!
//! `NESSKETTLE_LIBRARY` names another archive with the same functions.

use std::path::{Path, PathBuf};

fn main() {
    println!("cargo::rerun-if-env-changed=NESSKETTLE_LIBRARY");
    let archive = archive();
    println!("cargo::rerun-if-changed={}", archive.display());
    if !archive.is_file() {
        println!(
            "cargo::error={} is missing: run `rt lib` in crates/exports first",
            archive.display()
        );
        return;
    }
    let folder = archive.parent().expect("a file stands in a folder");
    println!("cargo::rustc-link-search=native={}", folder.display());
    println!("cargo::rustc-link-lib=static={}", library_name(&archive));
    // for the test that links it from C
    println!("cargo::rustc-env=NESSKETTLE_ARCHIVE={}", archive.display());
}

fn archive() -> PathBuf {
    match std::env::var_os("NESSKETTLE_LIBRARY") {
        Some(path) => PathBuf::from(path),
        None => {
            let package = std::env::var_os("CARGO_MANIFEST_DIR").expect("cargo sets it");
            Path::new(&package).join("../crates/exports/out/libexports.a")
        }
    }
}

/// `exports` of `libexports.a`.
fn library_name(archive: &Path) -> String {
    let stem = archive.file_stem().and_then(|s| s.to_str()).unwrap_or_default();
    match stem.strip_prefix("lib") {
        Some(name) => name.to_string(),
        None => panic!("{} is not named libNAME.a", archive.display()),
    }
}
