//! `nesskettle merge`: what it prints, and which of the two files a refusal is about.

mod running;

use running::{fails, prints, run};

const MACHINE: &str = "../../../examples/machine.sheet";
const CLINIC: &str = "../../../examples/clinic.sheet";

const EMPTY: &str = "sheet=1\nfuns=0\npreds=0\nclauses=0\n";

#[test]
fn two_sheets_are_merged() {
    let clauses = "clause=+ p c\nclause=- = a b\nclause=- = b c\nclause=+ p c\n";
    let more = format!("sheet=1\nfuns=3\nfun=a/0\nfun=c/0\nfun=b/0\npreds=1\npred=p/1\nclauses=4\n{clauses}");
    prints("merge - two-constants.sheet", &more, 0, &more);
    let new = clauses.replace("clause=- = a b\n", "");
    prints(
        "merge two-constants.sheet -",
        &more,
        0,
        &format!("sheet=1\nfuns=3\nfun=a/0\nfun=b/0\nfun=c/0\npreds=1\npred=p/1\nclauses=4\nclause=- = a b\n{new}"),
    );
}

#[test]
fn the_examples_are_merged() {
    let whole = include_str!("../../examples/both-eyes.sheet");
    prints(&format!("merge {MACHINE} {CLINIC}"), "", 0, whole);
}

#[test]
fn tptp_files_are_merged() {
    let both = "../../../examples/both-eyes.p";
    let each = "../../../examples/each-eye.p";
    let output = run(&format!("merge {both} {each}"), "");
    let merged = String::from_utf8_lossy(&output.stdout).into_owned();
    let sheet_of = |file: &str| String::from_utf8_lossy(&run(&format!("tptp {file}"), "").stdout).into_owned();
    let more = "clause=- stop_right + more right cap\n";
    assert!(sheet_of(each).contains(more) && !sheet_of(both).contains(more));
    assert_eq!(merged, sheet_of(both).replace("clauses=16", "clauses=17") + more);
    // a file of each kind
    prints(&format!("merge - {both}"), EMPTY, 0, &sheet_of(both));
    fails(
        &format!("merge {both} - --tptp"),
        "cnf(a, axiom, p | q",
        "nesskettle: refused 15, line 1, column 20: this does not belong to the TPTP clauses that are read, or the text ends \
         too early\n  standard input:1: cnf(a, axiom, p | q (the text ends here)\n                                       ^\n",
    );
}

#[test]
fn the_refused_sheet_is_named() {
    let faulty = "sheet=1\nfuns=0\npreds=1\npred=p/0\nclauses=1\nclause=+ p p +\n";
    let told = "nesskettle: refused 6, line 6, column 12: the words of this line do not make up a clause\n  \
                standard input:6: clause=+ p p +\n                               ^\n";
    fails(
        "merge - two-constants.sheet",
        faulty,
        &format!("{told}  standard input is the first sheet\n"),
    );
    fails(
        "merge two-constants.sheet -",
        faulty,
        &format!("{told}  standard input is the second sheet\n"),
    );
    // the first one's is told where both are at fault
    fails(
        "merge - group-6.case",
        faulty,
        &format!("{told}  standard input is the first sheet\n"),
    );
    let too_long = " ".repeat(16_385);
    let told = "nesskettle: refused 1: the sheet has more than 16,384 bytes\n";
    fails(
        "merge two-constants.sheet -",
        &too_long,
        &format!("{told}  standard input is the second sheet\n"),
    );
    fails(
        "merge - two-constants.sheet",
        &too_long,
        &format!("{told}  standard input is the first sheet\n"),
    );
}

#[test]
fn names_that_differ_are_shown() {
    let other = "sheet=1\nfuns=2\nfun=c/0\nfun=b/1\npreds=1\npred=a/0\nclauses=0\n";
    fails(
        "merge two-constants.sheet -",
        other,
        "nesskettle: refused 22: both sheets declare a name, with different kinds or numbers of arguments\n  \
         two-constants.sheet:4: fun=b/0\n  standard input:4: fun=b/1\n  \
         two-constants.sheet:3: fun=a/0\n  standard input:6: pred=a/0\n",
    );
}

#[test]
fn what_is_too_large_is_told() {
    let told =
        "nesskettle: refused 23: the merged sheet would be over the limit (12 functions, 12 predicates, 64 clauses, \
                16,384 bytes)\n  together they have ";
    let names: String = (0..12).map(|i| format!("fun=c{i}/0\n")).collect();
    fails(
        "merge two-constants.sheet -",
        &format!("sheet=1\nfuns=12\n{names}preds=0\nclauses=3\nclause=\nclause=- = c0 c1\nclause=\n"),
        &format!("{told}14 functions, 0 predicates and 4 clauses\n"),
    );
    let clauses = "clause=+ p\n".repeat(64);
    fails(
        "merge two-constants.sheet -",
        &format!("sheet=1\nfuns=1\nfun=a/0\npreds=1\npred=p/0\nclauses=64\n{clauses}"),
        &format!("{told}2 functions, 1 predicate and 65 clauses\n"),
    );
    let clause = ["+ abcdefghijkl A B C"; 12].join(" ");
    let clauses = format!("clause={clause}\n").repeat(63);
    fails(
        "merge two-constants.sheet -",
        &format!("sheet=1\nfuns=0\npreds=1\npred=abcdefghijkl/3\nclauses=63\n{clauses}"),
        &format!("{told}2 functions, 1 predicate and 64 clauses, which take too many bytes\n"),
    );
}

#[test]
fn wrong_calls_are_told() {
    let more = " (nesskettle --help says more)\n";
    fails(
        "merge group.sheet",
        "",
        &format!("nesskettle: the command takes FIRST SECOND{more}"),
    );
    fails(
        "merge group.sheet lattice.sheet --tables",
        "",
        &format!("nesskettle: --tables is no option of this command, or stands there twice{more}"),
    );
}
