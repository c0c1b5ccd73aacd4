//! `nesskettle renumber`, `least-form` and `same`: what they print, and what is refused.

mod running;

use running::{fails, prints};

const SHEET: &str = "../../../examples/both-eyes.sheet";
const BY_HAND: &str = "../../../examples/by-hand.case";
const FIRST: &str = "../../../examples/first-trainee.case";
const SECOND: &str = "../../../examples/second-trainee.case";

const GROUP: &str = include_str!("../data/sheets/group-6.case");

#[test]
fn a_case_is_renumbered() {
    prints(
        "renumber two-constants.sheet - 231",
        "case=1\nsize=3\na=1\nb=3\n",
        0,
        "case=1\nsize=3\na=2\nb=1\n",
    );
    prints(
        "renumber two-constants.sheet - 2,3,1 --tables",
        "case=1\nsize=3\na=1\nb=3\n",
        0,
        "a = 2\nb = 1\n",
    );
    prints("renumber group.sheet group-6.case 123456", "", 0, GROUP);
}

#[test]
fn the_examples_are_one_case() {
    let (first, second) = (
        include_str!("../../examples/first-trainee.case"),
        include_str!("../../examples/second-trainee.case"),
    );
    prints(
        &format!("same {SHEET} {FIRST} {SECOND}"),
        "",
        0,
        "answer=yes\nlist=231\n",
    );
    prints(
        &format!("same {SHEET} {SECOND} {FIRST}"),
        "",
        0,
        "answer=yes\nlist=312\n",
    );
    prints(&format!("renumber {SHEET} {FIRST} 231"), "", 0, second);
    prints(&format!("renumber {SHEET} {SECOND} 312"), "", 0, first);
    prints(&format!("same {SHEET} {FIRST} {BY_HAND}"), "", 1, "answer=no\n");
    let least = include_str!("../../examples/by-hand.case").replace("more=0 0 0 1 0 0 0 1 0", "more=0 0 0 1 0 0 1 1 0");
    prints(&format!("least-form {SHEET} {FIRST}"), "", 0, &least);
    prints(&format!("least-form {SHEET} {SECOND}"), "", 0, &least);
    prints(&format!("judge {SHEET} {SECOND}"), "", 0, "yes\n");
}

#[test]
fn the_first_list_is_told() {
    // every list makes this case of itself
    let even = "case=1\nsize=8\nf=1 2 3 4 5 6 7 8\n";
    let sheet = "cnf(1, axiom, f(X) = X).";
    let folder = std::path::Path::new(env!("CARGO_TARGET_TMPDIR"));
    let case = folder.join("even.case");
    std::fs::write(&case, even).expect("it is written");
    let case = case.display();
    prints(
        &format!("same - {case} {case} --tptp"),
        sheet,
        0,
        "answer=yes\nlist=12345678\n",
    );
    prints(&format!("least-form - {case} --tptp"), sheet, 0, even);
    // the last of all lists
    let last = folder.join("last.case");
    std::fs::write(&last, "case=1\nsize=8\nf=1 1 2 3 4 5 6 7\n").expect("it is written");
    let back = folder.join("back.case");
    std::fs::write(&back, "case=1\nsize=8\nf=2 3 4 5 6 7 8 8\n").expect("it is written");
    prints(
        &format!("same - {} {} --tptp", last.display(), back.display()),
        sheet,
        0,
        "answer=yes\nlist=87654321\n",
    );
    // of another size
    prints(
        &format!("same two-constants.sheet {} -", small(folder)),
        "case=1\nsize=2\na=1\nb=2\n",
        1,
        "answer=no\n",
    );
}

/// A case of three elements.
fn small(folder: &std::path::Path) -> String {
    let path = folder.join("small.case");
    std::fs::write(&path, "case=1\nsize=3\na=1\nb=2\n").expect("it is written");
    path.display().to_string()
}

#[test]
fn what_is_refused_is_told() {
    let list = |word: &str, size: &str| {
        fails(
            &format!("renumber two-constants.sheet - {word}"),
            &format!("case=1\nsize={size}\na=1\nb=1\n"),
            &format!(
                "nesskettle: refused 25: the list does not have each number from 1 to the case's size once\n  \
                 standard input has {size} element{}\n",
                if size == "1" { "" } else { "s" }
            ),
        );
    };
    list("12", "3");
    list("1233", "3");
    list("223", "3");
    list("120", "3");
    list("2", "1");
    let faulty = "case=1\nsize=3\na=1\nb=4\n";
    let told = "nesskettle: refused 12, line 4, column 3: this line of the case is missing or not as laid out, or the case goes \
                on after its end\n  standard input:4: b=4\n                      ^\n";
    fails("renumber two-constants.sheet - 12", faulty, told);
    fails("least-form two-constants.sheet -", faulty, told);
    fails(
        &format!("same {SHEET} {FIRST} group.sheet"),
        "",
        &case_told("group.sheet"),
    );
    fails(
        &format!("same {SHEET} group.sheet {FIRST}"),
        "",
        &case_told("group.sheet"),
    );
    fails(
        "least-form - group-6.case",
        "sheet=2\n",
        "nesskettle: refused 2, line 1, column 7: this line of the sheet is missing or not as laid out, or the sheet goes on \
         after its end\n  standard input:1: sheet=2\n                          ^\n",
    );
}

/// The words of a file that is no case from its first byte on.
fn case_told(name: &str) -> String {
    let mark = " ".repeat(name.len() + 6);
    format!(
        "nesskettle: refused 12, line 1, column 1: this line of the case is missing or not as laid out, or the case goes on \
         after its end\n  {name}:1: sheet=1\n{mark}^\n"
    )
}

#[test]
fn wrong_calls_are_told() {
    let more = " (nesskettle --help says more)\n";
    fails(
        "renumber group.sheet group-6.case",
        "",
        &format!("nesskettle: the command takes SHEET CASE LIST{more}"),
    );
    fails(
        "renumber group.sheet group-6.case 1a",
        "",
        &format!("nesskettle: LIST is digits, 231 for example{more}"),
    );
    fails(
        "same group.sheet group-6.case",
        "",
        &format!("nesskettle: the command takes SHEET CASE CASE{more}"),
    );
    fails(
        "same group.sheet group-6.case group-6.case --tables",
        "",
        &format!("nesskettle: --tables is no option of this command, or stands there twice{more}"),
    );
}
