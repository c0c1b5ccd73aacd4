//! The command `nesskettle` on the sheets of `data/sheets`: what it prints, and its exit status.

mod running;

use running::{fails, prints, run};

#[test]
fn check() {
    prints(
        "check two-constants.sheet",
        "",
        0,
        "2 functions, 0 predicates, 1 clause\n",
    );
    fails(
        "check -",
        "sheet=1\nfuns=0\npreds=1\npred=p/0\nclauses=1\nclause=+ p p +\n",
        "nesskettle: refused 6, line 6, column 12: the words of this line do not make up a clause\n  \
         standard input:6: clause=+ p p +\n                               ^\n",
    );
    fails(
        "check -",
        "sheet=1\nfuns=13\n",
        "nesskettle: refused 3, line 2, column 6: over the limit (12 functions, 12 predicates, 64 clauses, arity 3)\n  \
         standard input:2: funs=13\n                         ^\n",
    );
}

/// The input is refused with this number, line and column. Its line's number and the line are shown as here, but for the
/// `^`, which stands below the byte after it.
fn marks(arguments: &str, input: &str, refused: &str, shown: &str) {
    let output = run(arguments, input);
    let told = String::from_utf8_lossy(&output.stderr).into_owned();
    assert_eq!(output.status.code(), Some(2), "{told}");
    assert!(told.starts_with(&format!("nesskettle: refused {refused}: ")), "{told}");
    let (_, lines) = told.split_once('\n').expect("the line is shown");
    let (before, after) = shown.split_once('^').expect("a place is marked");
    let before = format!("  standard input:{before}");
    let mark = " ".repeat(before.len());
    assert_eq!(lines, format!("{before}{after}\n{mark}^\n"), "{told}");
}

#[test]
fn a_refused_sheet_is_marked() {
    let marks = |input: &str, refused: &str, shown: &str| {
        for verb in [
            "check -",
            "find -",
            "find - --plain",
            "clauses - --size 2",
            "judge - group-6.case",
            "explain - group-6.case",
            "setting - group-6.case",
            "from-solver - --size 2 group-6.case",
        ] {
            marks(verb, input, refused, shown);
        }
    };
    marks("cnf(a, axiom, p).\n", "2, line 1, column 1", "1: ^cnf(a, axiom, p).");
    marks("sheet=1\r\n", "2, line 1, column 8", "1: sheet=1^\\r");
    marks(
        "sheet=1\n",
        "2, line 2, column 1",
        "2: ^(the text ends before this line)",
    );
    marks("sheet=1\nfuns=0", "2, line 2, column 7", "2: funs=0^ (no line feed)");
    marks("sheet=1\nfuns=0\0", "2, line 2, column 7", "2: funs=0^\\x00");
    marks("sheet=1\nfuns=1\nfun=a\n", "2, line 3, column 6", "3: fun=a^");
    marks("sheet=1\nfuns=1\nfun=a/4\n", "3, line 3, column 7", "3: fun=a/^4");
    marks(
        "sheet=1\nfuns=1\nfun=\u{e9}/0\n",
        "4, line 3, column 5",
        "3: fun=^\\xc3\\xa9/0",
    );
    let clause = |words: &str| format!("sheet=1\nfuns=0\npreds=1\npred=p/0\nclauses=1\nclause={words}\n");
    marks(&clause("+\tp + q"), "5, line 6, column 8", "6: clause=^+\\tp + q");
    marks(&clause("+ p "), "5, line 6, column 12", "6: clause=+ p ^");
    marks(&clause("+ p +"), "6, line 6, column 13", "6: clause=+ p +^");
    // both ends of a long line are cut, or one of them
    let literals = |count: usize| vec!["+ p"; count].join(" ");
    marks(
        &clause(&literals(40)),
        "7, line 6, column 72",
        &format!("6: .. {0} ^{0}  ..", literals(9)),
    );
    marks(
        &clause(&format!("{} + q", literals(30))),
        "5, line 6, column 130",
        &format!("6: .. {} + ^q", &literals(30)[51..]),
    );
    marks(
        &clause(&format!("q {}", literals(30))),
        "5, line 6, column 8",
        &format!("6: clause=^q {} ..", &literals(30)[..63]),
    );
}

#[test]
fn judge() {
    prints("judge group.sheet group-6.case", "", 0, "yes\n");
    prints("judge two-constants.sheet -", "case=1\nsize=2\na=2\nb=2\n", 1, "no\n");
}

#[test]
fn explain() {
    prints("explain group.sheet group-6.case", "", 0, "answer=yes\n");
    prints(
        "explain two-constants.sheet -",
        "case=1\nsize=2\na=2\nb=2\n",
        1,
        "answer=no\nclause=1\n\n\
         two-constants.sheet:7: clause=- = a b\n  \
           - = a b: false, = 2 2 holds\n      \
               a = 2\n      \
               b = 2\n",
    );
    // one product of the group changed: 2 and 5 give 5
    let group = include_str!("../data/sheets/group-6.case").replace("2 1 4 3 6 5", "2 1 4 3 5 6");
    prints(
        "explain group.sheet -",
        &group,
        1,
        "answer=no\nclause=3\nA=2\nB=3\nC=2\n\n\
         group.sheet:12: clause=+ = m m A B C m A m B C\n  \
           + = m m A B C m A m B C: false, = 6 5 does not hold\n      \
               m A B = m 2 3 = 4\n      \
               m m A B C = m 4 2 = 6\n      \
               m B C = m 3 2 = 5\n      \
               m A m B C = m 2 5 = 5\n",
    );
    prints(
        "explain ../../../examples/both-eyes.sheet ../../../examples/by-hand.case",
        "",
        1,
        "answer=no\nclause=2\nA=3\nB=2\nC=1\n\n\
         ../../../examples/both-eyes.sheet:15: clause=- more A B - more B C + more A C\n  \
           - more A B: false, more 3 2 holds\n  \
           - more B C: false, more 2 1 holds\n  \
           + more A C: false, more 3 1 does not hold\n",
    );
}

/// Every kind of literal, on a sheet with as many symbols as there can be, some named as other things are.
#[test]
fn explain_every_kind_of_literal() {
    let ones = "c1=1\nc2=1\nc3=1\nc4=1\nc5=1\nc6=1\nc7=1\n";
    let zeros = "p1=0\np2=0\np3=0\np4=0\np5=0\np6=0\np7=0\np8=0\n";
    let case = format!(
        "case=1\nsize=2\n{ones}x=2\nf=1 1 1 1 1 2 1 2\nclause=2 1\ny=1 1 2 1\np=1\n\
         {zeros}z=0 0 0 0 0 0 0 1\ncase=1\nsize=0 1\nq=1 1 0 1\n"
    );
    prints(
        "explain kinds-of-literals.sheet -",
        &case,
        1,
        "answer=no\nclause=2\nH=2\nB=2\n\n\
         kinds-of-literals.sheet:30: clause=- case + size clause H - z H x B + q y B p f x H clause x - = B x\n  \
           - case: false, case holds\n  \
           + size clause H: false, size 1 does not hold\n      \
               clause H = clause 2 = 1\n  \
           - z H x B: false, z 2 2 2 holds\n      \
               x = 2\n  \
           + q y B p f x H clause x: false, q 2 1 does not hold\n      \
               p = 1\n      \
               y B p = y 2 1 = 2\n      \
               x = 2\n      \
               clause x = clause 2 = 1\n      \
               f x H clause x = f 2 2 1 = 1\n  \
           - = B x: false, = 2 2 holds\n      \
               x = 2\n",
    );
}

#[test]
fn explain_the_empty_clause() {
    prints(
        "explain - group-6.case --tptp",
        "cnf(holds, axiom, e = a | b = b | inv(X) = m(X, X)).\ncnf(never, axiom, $false).\n",
        1,
        "answer=no\nclause=2\n\nthe sheet of standard input:11: clause=\n  (no literal)\n",
    );
}

#[test]
fn a_refused_case_is_marked() {
    for verb in ["judge", "explain", "setting"] {
        marks_cases(verb);
    }
}

fn marks_cases(verb: &str) {
    let call = format!("{verb} two-constants.sheet -");
    let marks = |input: &str, refused: &str, shown: &str| marks(&call, input, refused, shown);
    marks("case=1\nsize=9\n", "12, line 2, column 6", "2: size=^9");
    marks("case=1\nsize=2\na=1\tb=2\n", "12, line 3, column 4", "3: a=1^\\tb=2");
    marks(
        "case=1\nsize=2\na=1\nb=2",
        "12, line 4, column 4",
        "4: b=2^ (no line feed)",
    );
    marks("case=1\nsize=2\na=1\nb=2\n\n", "12, line 5, column 1", "5: ^");
}

#[test]
fn the_refused_file_is_named() {
    let sheet = run("judge group-6.case group-6.case", "");
    let shown = "\n  group-6.case:1: case=1\n                  ^\n";
    assert!(String::from_utf8_lossy(&sheet.stderr).ends_with(shown));
    let case = run("judge two-constants.sheet two-constants.sheet", "");
    let shown = "\n  two-constants.sheet:1: sheet=1\n                         ^\n";
    assert!(String::from_utf8_lossy(&case.stderr).starts_with("nesskettle: refused 12, "));
    assert!(String::from_utf8_lossy(&case.stderr).ends_with(shown));
}

#[test]
fn clauses() {
    let text = "p cnf 4 6\n1 2 0\n-1 -2 0\n3 4 0\n-3 -4 0\n-3 -1 0\n-4 -2 0\n";
    prints("clauses two-constants.sheet --size 2", "", 0, text);
    prints("clauses --size 2 two-constants.sheet", "", 0, text);
    fails(
        "clauses two-constants.sheet --size 9",
        "",
        "nesskettle: refused 8: a size must be 1 to 8, and low must not be above high\n",
    );
}

#[test]
fn read_back() {
    let case = "case=1\nsize=2\na=2\nb=1\n";
    prints("read-back two-constants.sheet --size 2 -", "0110", 0, case);
    prints("read-back two-constants.sheet --size 2 -", "0 1\n1 0\n", 0, case);
    prints(
        "read-back two-constants.sheet --size 2 - --tables",
        "0110",
        0,
        "a = 2\nb = 1\n",
    );
    for (setting, reason) in [("011", 13), ("0120", 13), ("1100", 14)] {
        let refused = run("read-back two-constants.sheet --size 2 -", setting);
        let told = String::from_utf8_lossy(&refused.stderr).into_owned();
        assert!(told.starts_with(&format!("nesskettle: refused {reason}: ")), "{told}");
    }
    fails(
        "read-back two-constants.sheet --size 2 -",
        "01-0",
        "nesskettle: standard input: byte 3 is neither a digit nor a blank\n",
    );
}

#[test]
fn setting() {
    // one line for each symbol; the case is no model
    prints(
        "setting two-constants.sheet -",
        "case=1\nsize=2\na=2\nb=2\n",
        0,
        "01\n01\n",
    );
    prints(
        "setting ../../../examples/both-eyes.sheet ../../../examples/by-hand.case",
        "",
        0,
        "100\n100\n010\n001\n000 100 010\n0\n1\n0\n1\n",
    );
    // no clause, so no symbol
    prints("setting --tptp /dev/null -", "case=1\nsize=3\n", 0, "");
}

/// What `setting` prints is what `read-back` takes.
#[test]
fn a_setting_is_read_back() {
    let read_back_again = |sheet: &str, case: &str, size: usize| {
        let setting = run(&format!("setting {sheet} -"), case);
        assert_eq!(setting.status.code(), Some(0), "{case}");
        let digits = String::from_utf8(setting.stdout).expect("digits are text");
        prints(&format!("read-back {sheet} --size {size} -"), &digits, 0, case);
    };
    read_back_again("two-constants.sheet", "case=1\nsize=1\na=1\nb=1\n", 1);
    read_back_again("group.sheet", include_str!("../data/sheets/group-6.case"), 6);
    let ones = "c1=1\nc2=2\nc3=1\nc4=2\nc5=1\nc6=2\nc7=1\n";
    let zeros = "p1=0\np2=1\np3=0\np4=1\np5=0\np6=1\np7=0\np8=1\n";
    let case = format!(
        "case=1\nsize=2\n{ones}x=2\nf=1 1 1 1 1 2 1 2\nclause=2 1\ny=1 1 2 1\np=1\n\
         {zeros}z=0 0 0 0 0 0 0 1\ncase=1\nsize=0 1\nq=1 1 0 1\n"
    );
    read_back_again("kinds-of-literals.sheet", &case, 2);
}

#[test]
fn from_solver() {
    let call = "from-solver two-constants.sheet --size 2 -";
    let answer = "c any solver\ns SATISFIABLE\nv 2 3 -1\nv -4 0\n";
    prints(call, answer, 0, "case=1\nsize=2\na=2\nb=1\n");
    prints(&format!("{call} --tables"), answer, 0, "a = 2\nb = 1\n");
    prints(
        "from-solver ../../../examples/both-eyes.sheet --size 3 ../../../examples/both-eyes.answer",
        "",
        0,
        "case=1\nsize=3\nleft=3\nright=3\ncap=2\nboth=1\nmore=0 1 1 0 0 1 0 0 0\n\
         stop_left=0\nstop_right=1\npatchy_left=0\npatchy_right=1\n",
    );
    let refused = |input: &str, told: &str| fails(call, input, &format!("nesskettle: refused {told}\n"));
    let bad = "18: the solver's answer is not one s line and then v lines as laid out (one space between numbers, 0 last of \
               all, a line feed after each line), or does not state each propositional variable of the sheet at this size \
               once";
    refused("s SATISFIABLE\nv 2 3 -1 0\n", bad);
    refused("s SATISFIABLE\nv 2 3 -1 -4 0", bad);
    refused("SAT\n2 3 -1 -4 0\n", bad);
    refused(
        "s SATISFIABLE\nv 1 2 3 -4 0\n",
        "14: the setting gives a function no result or several for some arguments",
    );
    refused(
        "s SATISFIABLE\nv 1 -2 3 -4 0\n",
        "19: the solver's answer stands for a case that is no model of the sheet",
    );
    fails(
        "from-solver two-constants.sheet --size 0 -",
        "",
        "nesskettle: refused 8: a size must be 1 to 8, and low must not be above high\n",
    );
}

#[test]
fn a_solver_that_claims_none() {
    prints(
        "from-solver two-constants.sheet --size 1 -",
        "c any solver\ns UNSATISFIABLE\n",
        3,
        "claimed none: the solver says that no case of size 1 is a model.\n\
         This is the solver's claim, which nothing here has checked; it says nothing about other sizes.\n",
    );
    // the words are the solver's, though there is a model
    let output = run(
        "from-solver two-constants.sheet --size 2 - --tables",
        "s UNSATISFIABLE\n",
    );
    assert!(output.stdout.starts_with(b"claimed none: the solver says "));
    assert_eq!(output.status.code(), Some(3));
}

#[test]
fn find() {
    prints(
        "find two-constants.sheet",
        "",
        0,
        "answer=found\ncase=1\nsize=2\na=1\nb=2\n",
    );
    prints(
        "find two-constants.sheet --low 1 --high 1",
        "",
        1,
        "answer=none\nsettled=no\n",
    );
    prints(
        "find two-constants.sheet --high 1 --tables",
        "",
        1,
        "none: no case of size 1 is a model\nsettled: no, another size may have a model\n",
    );
    prints(
        "find serial-order.sheet --high 4 --tables",
        "",
        1,
        "none: no case of a size from 1 to 4 is a model\nsettled: no, another size may have a model\n",
    );
    let all_equal = "sheet=1\nfuns=0\npreds=0\nclauses=1\nclause=+ = A B\n";
    prints("find - --low 3 --high 5", all_equal, 1, "answer=none\nsettled=no\n");
    prints("find -", all_equal, 0, "answer=found\ncase=1\nsize=1\n");
    let never = "sheet=1\nfuns=0\npreds=0\nclauses=1\nclause=\n";
    prints("find - --high 1", never, 1, "answer=none\nsettled=yes\n");
    prints("find - --low 2", never, 1, "answer=none\nsettled=no\n");
    prints(
        "find - --tables",
        never,
        1,
        "none: no case of a size from 1 to 8 is a model\nsettled: yes, no other size has a model either\n",
    );
    fails(
        "find two-constants.sheet --low 3 --high 2",
        "",
        "nesskettle: refused 8: a size must be 1 to 8, and low must not be above high\n",
    );
}

/// The plain search prints what the other one prints without constant clauses, in every layout.
#[test]
fn find_plain() {
    for arguments in [
        "two-constants.sheet",
        "two-constants.sheet --low 3",
        "two-constants.sheet --high 1",
        "two-constants.sheet --low 1 --high 1 --tables",
        "pigeonhole.sheet --high 4 --tables",
        "serial-order.sheet --high 3",
        "serial-order.sheet --high 3 --szs",
        "../../../examples/both-eyes.sheet --high 3",
        "../../../examples/both-eyes.sheet --high 7 --tables",
        "../../../examples/both-eyes.p --high 3 --szs",
        "../../../examples/each-eye.p --high 2",
    ] {
        let other = run(&format!("find --no-symmetry {arguments}"), "");
        let status = other.status.code().expect("it ends");
        assert!(status < 2, "{arguments}");
        let text = String::from_utf8(other.stdout).expect("an answer is text");
        prints(&format!("find --plain {arguments}"), "", status, &text);
    }
    let least = "answer=found\ncase=1\nsize=2\nf=1 1\na=2\n";
    prints("find - --plain", FUNCTION_FIRST, 0, least);
    prints("find - --plain --no-symmetry", FUNCTION_FIRST, 0, least);
    let never = "sheet=1\nfuns=0\npreds=0\nclauses=1\nclause=\n";
    prints("find - --plain", never, 1, "answer=none\nsettled=yes\n");
    prints("find - --plain --low 2", never, 1, "answer=none\nsettled=no\n");
    prints(
        "find --plain - --tptp",
        TWO_CONSTANTS,
        0,
        "answer=found\ncase=1\nsize=2\na=1\nb=2\n",
    );
}

/// Everything is mapped to one element, which is not the constant's: of two elements this is 1 in the least case, and 2 where
/// the first constant must be 1.
const FUNCTION_FIRST: &str =
    "sheet=1\nfuns=2\nfun=f/1\nfun=a/0\npreds=0\nclauses=2\nclause=+ = f A f B\nclause=- = f a a\n";

#[test]
fn constant_clauses() {
    let found = |case: &str| format!("answer=found\ncase=1\nsize=2\n{case}");
    prints("find -", FUNCTION_FIRST, 0, &found("f=2 2\na=1\n"));
    prints("find - --named", FUNCTION_FIRST, 0, &found("f=2 2\na=1\n"));
    prints("find - --no-symmetry", FUNCTION_FIRST, 0, &found("f=1 1\na=2\n"));
    prints(
        "find - --named --no-symmetry --tables",
        FUNCTION_FIRST,
        0,
        "found: a model of size 2\n\nf | 1 2\n--+----\n  | 1 1\n\na = 2\n",
    );
    prints("find - --high 1", FUNCTION_FIRST, 1, "answer=none\nsettled=no\n");
    prints(
        "clauses two-constants.sheet --size 2 --symmetry",
        "",
        0,
        "p cnf 4 9\n1 2 0\n-1 -2 0\n3 4 0\n-3 -4 0\n1 0\n3 4 0\n-4 1 0\n-3 -1 0\n-4 -2 0\n",
    );
    prints(
        "clauses - --size 1 --named --symmetry",
        FUNCTION_FIRST,
        0,
        "p cnf 3 7\n1 0\n2 0\n3 0\n2 0\n-2 -1 3 0\n-1 1 0\n-2 -3 0\n",
    );
    // a solver's answer to the text with them
    let answer = "s SATISFIABLE\nv 1 -2 -3 4 0\n";
    prints(
        "from-solver two-constants.sheet --size 2 -",
        answer,
        0,
        "case=1\nsize=2\na=1\nb=2\n",
    );
}

/// It prints this on standard output, these words on how to go on, and ends with status 4.
fn stops(arguments: &str, text: &str, words: &str) {
    let output = run(arguments, "");
    assert_eq!(String::from_utf8_lossy(&output.stdout), text, "{arguments}");
    let told = String::from_utf8_lossy(&output.stderr).into_owned();
    assert_eq!(told, format!("nesskettle: {words}\n"), "{arguments}");
    assert_eq!(output.status.code(), Some(4), "{arguments}");
}

const BY_A_SOLVER: &str =
    "  a SAT solver may be faster: nesskettle clauses SHEET --size 2 --symmetry | cadical -q |\n      \
                           nesskettle from-solver SHEET --size 2 -";

/// Whether `a` is 1 is the one choice, at size 2; with constant clauses there is none.
#[test]
fn an_allowance() {
    let found = "answer=found\ncase=1\nsize=2\na=1\nb=2\n";
    for allowance in ["0", "1", "1000000"] {
        prints(&format!("find two-constants.sheet --allow {allowance}"), "", 0, found);
    }
    for allowance in ["1", "2", "1000000"] {
        let arguments = format!("find two-constants.sheet --no-symmetry --allow {allowance}");
        prints(&arguments, "", 0, found);
    }
    let first = "stopped at size 2: one choice more is needed than the allowance of 0";
    let from_there = "  no case of size 1 is a model\n  --low 2 --allow N goes on from there, N up to 1000000";
    let twins = "  without --no-symmetry fewer choices are often enough";
    let words = [first, from_there, twins, BY_A_SOLVER].join("\n");
    let arguments = "find two-constants.sheet --no-symmetry --allow 0";
    stops(arguments, "answer=stopped\nsize=2\n", &words);
    stops(
        &format!("{arguments} --tables"),
        "stopped: more choices are needed at size 2 than are allowed\nno case of size 1 is a model\n",
        &words,
    );
    stops(
        &format!("{arguments} --szs"),
        "% SZS status ResourceOut for two-constants.sheet\n% more choices are needed at size 2 than are allowed\n",
        &words,
    );
    stops(
        &format!("{arguments} --low 2 --tables"),
        "stopped: more choices are needed at size 2 than are allowed\n",
        &[first, "  --allow N allows more, N up to 1000000", twins, BY_A_SOLVER].join("\n"),
    );
    stops(
        &format!("{arguments} --named"),
        "answer=stopped\nsize=2\n",
        &[first, from_there, twins].join("\n"),
    );
    prints(
        "find two-constants.sheet --no-symmetry --allow 0 --high 1",
        "",
        1,
        "answer=none\nsettled=no\n",
    );
}

#[test]
fn an_allowance_that_is_too_large() {
    let refused = "nesskettle: refused 24: at most 1,000,000 choices can be allowed\n";
    for allowance in ["1000001", "4294967296", "18446744073709551615"] {
        fails(&format!("find two-constants.sheet --allow {allowance}"), "", refused);
    }
    fails(
        "find two-constants.sheet --high 9 --allow 1000001",
        "",
        "nesskettle: refused 8: a size must be 1 to 8, and low must not be above high\n",
    );
}

/// A million instances without the constant clauses, which are one too many.
#[test]
fn constant_clauses_that_are_too_many() {
    let most = include_str!("../data/sheets/million-constant.sheet");
    let over = most.replace("clauses=20", "clauses=21") + "clause=+ o\n";
    let hint = "  --no-symmetry takes this sheet: the constant clauses are not among its instances";
    hints("find -", &over, 9, hint);
    hints("find - --named", &over, 9, hint);
    for call in ["find million-constant.sheet", "find - --no-symmetry"] {
        let found = run(call, &over);
        assert!(found.stdout.starts_with(b"answer=found\ncase=1\nsize=1\n"), "{call}");
    }
    let more = over.replace("clauses=21", "clauses=22") + "clause=+ o\n";
    hints("find -", &more, 9, "");
    hints("find - --no-symmetry", &more, 9, "");
}

#[test]
fn too_many_cells() {
    let refused =
        "nesskettle: refused 20: a case of size high has more than 64 cells, and the plain search takes at most 64: \
                   take a lower high, or find without plain\n";
    fails(
        "find --plain ../../../examples/both-eyes.sheet",
        "",
        &format!("{refused}  --plain takes this sheet up to --high 7\n"),
    );
    fails(
        "find million.sheet --plain --low 5 --high 6",
        "",
        &format!("{refused}  --plain does not take this sheet at size 5\n"),
    );
    // 64 cells
    prints(
        "find million.sheet --plain --high 4",
        "",
        0,
        "answer=found\ncase=1\nsize=1\nq=1\n",
    );
}

/// A sheet whose last clause has too many variables as written: two terms of six functions on a constant.
const COUNTER: &str = "../../../examples/counter.sheet";

#[test]
fn named_terms_are_searched() {
    let case = "case=1\nsize=3\nleft=1\nright=2\nagain=2 3 3\n";
    let found = format!("answer=found\n{case}");
    prints(&format!("find {COUNTER} --named --high 4"), "", 0, &found);
    prints(
        &format!("find --named --high 2 {COUNTER}"),
        "",
        1,
        "answer=none\nsettled=no\n",
    );
    prints(
        &format!("find --named --high 3 {COUNTER} --tables"),
        "",
        0,
        "found: a model of size 3\n\nleft = 1\nright = 2\n\nagain | 1 2 3\n------+------\n      | 2 3 3\n",
    );
    // the helpers' digits come last
    let call = format!("read-back {COUNTER} --size 3 --named -");
    prints(&call, "100 010 010 001 001 001 001", 0, case);
    for (setting, reason) in [("100 010 010 001 001", 13), ("100 010 010 001 001 001 011", 14)] {
        let told = String::from_utf8(run(&call, setting).stderr).expect("words are text");
        assert!(told.starts_with(&format!("nesskettle: refused {reason}: ")), "{told}");
    }
    // a is 1, f is 2, p is 3 and f a is 4
    let sheet = "sheet=1\nfuns=2\nfun=a/0\nfun=f/1\npreds=1\npred=p/1\nclauses=1\nclause=+ p f a\n";
    prints(
        "clauses - --size 1 --named",
        sheet,
        0,
        "p cnf 4 5\n1 0\n2 0\n4 0\n-1 -2 4 0\n-4 3 0\n",
    );
    prints("clauses - --size 1", sheet, 0, "p cnf 3 3\n1 0\n2 0\n-1 -2 3 0\n");
    // the same with and without
    for arguments in [
        "two-constants.sheet",
        "steiner.sheet --low 7",
        "../../../examples/both-eyes.p --high 3",
    ] {
        let other = String::from_utf8(run(&format!("find {arguments}"), "").stdout).expect("an answer is text");
        prints(&format!("find {arguments} --named"), "", 0, &other);
    }
}

/// What the command says after the refusal itself and, where it names a line, the line and its mark.
fn hints(arguments: &str, input: &str, number: u32, hint: &str) {
    let told = String::from_utf8(run(arguments, input).stderr).expect("words are text");
    assert!(told.starts_with(&format!("nesskettle: refused {number}")), "{told}");
    let hints: Vec<&str> = told.lines().skip(if told.contains('^') { 3 } else { 1 }).collect();
    assert_eq!(hints.join("\n"), hint, "{arguments}");
}

/// `--named` is named only where it takes the sheet, and so is going without it.
#[test]
fn what_to_do_about_limits_of_clauses() {
    let named = |limit: &str| {
        format!("  --named takes this sheet{limit}: it names the terms without variables, and they count by their names alone")
    };
    let counted = "  with --named this is counted with the names put in, and for the clause + = NAME TERM of each term that first \
                   stands on this line;\n  a constant of your own for a part of a large term helps: fun=c/0 and clause=+ = c \
                   PART";
    let without = "  without --named this sheet is taken";
    hints(&format!("find {COUNTER} --high 4"), "", 7, &named(""));
    hints(&format!("find {COUNTER}"), "", 7, &named(" up to --high 6"));
    hints(&format!("find {COUNTER} --high 9"), "", 7, &named(" up to --high 6"));
    hints(&format!("find {COUNTER} --low 8"), "", 7, "");
    hints(
        &format!("find {COUNTER} --low 0 --high 18446744073709551615"),
        "",
        7,
        "",
    );
    hints(&format!("clauses {COUNTER} --size 6"), "", 7, &named(""));
    hints(&format!("clauses {COUNTER} --size 7"), "", 7, "");
    hints(&format!("read-back {COUNTER} --size 1 -"), "11111", 7, &named(""));
    hints(&format!("read-back {COUNTER} --size 1 -"), "111", 7, "");
    // no other command names terms
    hints(&format!("find {COUNTER} --plain"), "", 7, "");
    hints(&format!("check {COUNTER}"), "", 7, "");
    let sheet =
        |clause: &str| format!("sheet=1\nfuns=2\nfun=a/0\nfun=f/1\npreds=1\npred=p/1\nclauses=1\nclause={clause}\n");
    let deep = |before: &str, after: &str| sheet(&format!("{before} {}a{after}", "f ".repeat(10)));
    hints("find - --named", &deep("+ p", ""), 7, counted);
    hints("find - --high 2", &deep("+ p", ""), 7, "");
    hints(
        "find - --named --high 2",
        &deep("+ =", " a"),
        7,
        &format!("{counted}\n{without}"),
    );
    hints(
        "find - --named",
        &deep("+ =", " a"),
        7,
        &format!("{counted}\n{without} up to --high 3"),
    );
    hints(
        "clauses - --size 3 --named",
        &deep("+ =", " a"),
        7,
        &format!("{counted}\n{without}"),
    );
}

#[test]
fn too_many_helpers() {
    let functions: String = (0..6).map(|i| format!("fun=c{i}/0\n")).collect();
    let clauses: String = (0..33)
        .map(|i| format!("clause=+ p g c{} c{}\n", i / 6, i % 6))
        .collect();
    let sheet = format!("sheet=1\nfuns=7\n{functions}fun=g/2\npreds=1\npred=p/1\nclauses=33\n{clauses}");
    let refused = "nesskettle: refused 21: the sheet has more than 32 different terms to name (terms without variables that are no \
                   constants and stand inside no other), and at most 32 are named: declare constants for some of them, or \
                   leave terms as they are written\n  without --named this sheet is taken\n";
    fails("find - --named --high 3", &sheet, refused);
    fails("clauses - --size 3 --named", &sheet, refused);
    fails(
        "find - --named --high 2 --low 3",
        &sheet,
        refused.strip_suffix("  without --named this sheet is taken\n").unwrap(),
    );
}

#[test]
fn tables() {
    let sheet = "sheet=1\nfuns=3\nfun=a/0\nfun=f/1\nfun=g/2\npreds=3\npred=on/0\npred=p/1\npred=t/3\nclauses=4\n\
                 clause=- = f A A\nclause=+ on\nclause=+ p a\nclause=+ t A f A A\n";
    let tables = "found: a model of size 2\n\n\
                  a = 1\n\n\
                  f | 1 2\n--+----\n  | 2 1\n\n\
                  g | 1 2\n--+----\n1 | 1 1\n2 | 1 1\n\n\
                  on = yes\n\n\
                  p | 1 2\n--+----\n  | 1 .\n\n\
                  t 1 | 1 2\n----+----\n  1 | . .\n  2 | 1 .\n\n\
                  t 2 | 1 2\n----+----\n  1 | . 1\n  2 | . .\n";
    prints("find - --high 3 --tables", sheet, 0, tables);
}

const TWO_CONSTANTS: &str = "cnf(apart, axiom, a != b). % no end of line";

#[test]
fn tptp() {
    let sheet = "sheet=1\nfuns=2\nfun=a/0\nfun=b/0\npreds=0\nclauses=1\nclause=- = a b\n";
    prints("tptp -", TWO_CONSTANTS, 0, sheet);
    prints("tptp - --tptp", TWO_CONSTANTS, 0, sheet);
    prints("tptp -", "", 0, "sheet=1\nfuns=0\npreds=0\nclauses=0\n");
}

#[test]
fn every_verb_takes_a_tptp_file() {
    let found = "answer=found\ncase=1\nsize=2\na=1\nb=2\n";
    prints("find - --tptp", TWO_CONSTANTS, 0, found);
    prints(
        "find --tptp - --tables",
        TWO_CONSTANTS,
        0,
        "found: a model of size 2\n\na = 1\nb = 2\n",
    );
    prints(
        "check --tptp -",
        TWO_CONSTANTS,
        0,
        "2 functions, 0 predicates, 1 clause\n",
    );
    let text = "p cnf 2 3\n1 0\n2 0\n-2 -1 0\n";
    prints("clauses --tptp - --size 1", TWO_CONSTANTS, 0, text);
    let examples = "../../../examples";
    prints(
        &format!("check {examples}/both-eyes.p"),
        "",
        0,
        "4 functions, 5 predicates, 16 clauses\n",
    );
    let case = "case=1\nsize=1\nboth=1\nleft=1\nright=1\ncap=1\nmore=0\nstop_left=0\nstop_right=1\npatchy_left=0\n\
                patchy_right=1\n";
    prints(&format!("judge {examples}/both-eyes.p -"), case, 1, "no\n");
    prints(
        &format!("explain {examples}/both-eyes.p -"),
        case,
        1,
        &format!(
            "answer=no\nclause=4\n\n\
             the sheet of {examples}/both-eyes.p:17: clause=+ more both left\n  \
               + more both left: false, more 1 1 does not hold\n      \
                   both = 1\n      \
                   left = 1\n"
        ),
    );
    prints(
        &format!("read-back {examples}/both-eyes.p --size 1 -"),
        "1111 0 0101",
        0,
        case,
    );
    prints(
        &format!("from-solver {examples}/each-eye.p --size 1 -"),
        "s UNSATISFIABLE\n",
        3,
        "claimed none: the solver says that no case of size 1 is a model.\n\
         This is the solver's claim, which nothing here has checked; it says nothing about other sizes.\n",
    );
    prints(
        &format!("setting {examples}/both-eyes.p -"),
        case,
        0,
        "1\n1\n1\n1\n0\n0\n1\n0\n1\n",
    );
}

#[test]
fn the_tptp_examples() {
    prints(
        "find ../../../examples/both-eyes.p --high 4",
        "",
        0,
        "answer=found\ncase=1\nsize=3\nboth=1\nleft=2\nright=2\ncap=3\nmore=0 1 1 0 0 0 0 1 0\n\
         stop_left=0\nstop_right=1\npatchy_left=0\npatchy_right=1\n",
    );
    prints(
        "find ../../../examples/each-eye.p --high 4",
        "",
        1,
        "answer=none\nsettled=yes\n",
    );
}

#[test]
fn a_refused_tptp_text_is_marked() {
    let marks = |input: &str, refused: &str, shown: &str| {
        for verb in ["tptp -", "find - --tptp"] {
            marks(verb, input, refused, shown);
        }
    };
    marks(
        "% two arities\ncnf(a, axiom, p(X) | ~ p(X, X)).\n",
        "16, line 2, column 24",
        "2: cnf(a, axiom, p(X) | ~ ^p(X, X)).",
    );
    marks(
        "cnf(a,\taxiom, 'p').\n",
        "15, line 1, column 15",
        "1: cnf(a,\\taxiom, ^'p').",
    );
    marks(
        "cnf(a, axiom, p)",
        "15, line 1, column 17",
        "1: cnf(a, axiom, p)^ (the text ends here)",
    );
    marks(
        "/* no end\n",
        "15, line 2, column 1",
        "2: ^(the text ends before this line)",
    );
    marks(
        &format!("cnf(a, axiom, {0}q & p | {0}).\n", "p | ".repeat(40)),
        "15, line 1, column 177",
        &format!("1: .. | {0}q ^& {0}p  ..", "p | ".repeat(8)),
    );
}

#[test]
fn wrong_calls_are_told() {
    let more = " (nesskettle --help says more)\n";
    fails("", "", &format!("nesskettle: no command was given{more}"));
    fails("look", "", &format!("nesskettle: there is no command look{more}"));
    fails("check", "", &format!("nesskettle: the command takes SHEET{more}"));
    fails(
        "judge group.sheet",
        "",
        &format!("nesskettle: the command takes SHEET CASE{more}"),
    );
    fails(
        "setting group.sheet --size 2 group-6.case",
        "",
        &format!("nesskettle: --size is no option of this command, or stands there twice{more}"),
    );
    for call in ["clauses group.sheet", "from-solver group.sheet answer"] {
        fails(call, "", &format!("nesskettle: --size N is needed{more}"));
    }
    fails(
        "from-solver group.sheet --size 2",
        "",
        &format!("nesskettle: the command takes SHEET ANSWER{more}"),
    );
    fails(
        "find group.sheet --low",
        "",
        &format!("nesskettle: --low takes a number{more}"),
    );
    let option = "nesskettle: --tables is no option of this command, or stands there twice";
    fails("check group.sheet --tables", "", &format!("{option}{more}"));
    let option = "nesskettle: --plain is no option of this command, or stands there twice";
    fails("clauses group.sheet --size 2 --plain", "", &format!("{option}{more}"));
    for (call, option) in [
        ("clauses group.sheet --size 2 --no-symmetry", "--no-symmetry"),
        ("find group.sheet --symmetry", "--symmetry"),
        ("read-back group.sheet --size 2 setting --symmetry", "--symmetry"),
    ] {
        let told = format!("nesskettle: {option} is no option of this command, or stands there twice{more}");
        fails(call, "", &told);
    }
    let option = "nesskettle: --named is no option of this command, or stands there twice";
    fails("judge group.sheet group-6.case --named", "", &format!("{option}{more}"));
    fails(
        "find group.sheet --named --plain",
        "",
        &format!("nesskettle: --plain and --named are not for one search{more}"),
    );
    fails(
        "find group.sheet --plain --allow 3",
        "",
        &format!("nesskettle: --plain makes no choices and takes no --allow{more}"),
    );
    for call in ["find group.sheet --allow", "find group.sheet --allow -1"] {
        fails(call, "", &format!("nesskettle: --allow takes a number{more}"));
    }
    assert_eq!(run("check no-such.sheet", "").status.code(), Some(2));
    assert!(run("--help", "")
        .stdout
        .starts_with(b"nesskettle: a finite model finder."));
    assert!(run("--version", "").stdout.starts_with(b"nesskettle 0."));
}
