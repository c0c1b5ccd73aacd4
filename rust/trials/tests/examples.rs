//! The specification's examples, executed on the proved library.

use nesskettle::Terms::{self, AsWritten, Named};
use nesskettle::{find, find_plain, from_solver, judge, read, read_back, setting, write};
use nesskettle::{Counts, FindOptions, Reason, Refusal, Search, SolverAnswer};
use nesskettle_reference::sheet_of;
use nesskettle_trials::options::{asked, not_asked, told_no};
use nesskettle_trials::problems::{sheet, GROUP_CASE};

/// Line and column of a refusal that names none.
const NO_PLACE: (u64, u64) = (0, 0);

fn refused<T>(reason: Reason, (line, column): (u64, u64)) -> Result<T, Refusal> {
    Err(Refusal {
        reason,
        line,
        column,
        needed: 0,
    })
}

/// The text of a call that writes one.
fn text_of(mut call: impl FnMut(&mut [u8]) -> Result<usize, Refusal>) -> Result<String, Refusal> {
    let mut output = vec![0; 20_000];
    let length = call(&mut output)?;
    Ok(String::from_utf8_lossy(&output[..length]).into_owned())
}

fn clauses_at(sheet: &[u8], size: u64) -> String {
    clauses_of(sheet, size, AsWritten)
}

fn clauses_of(sheet: &[u8], size: u64, terms: Terms) -> String {
    text_of(|output| write(sheet, size, not_asked(terms), output)).expect("it is written")
}

/// The least model from low to high, or the settled mark.
fn found(sheet: &[u8], low: u64, high: u64) -> Result<String, bool> {
    found_of(sheet, low, high, AsWritten)
}

fn found_of(sheet: &[u8], low: u64, high: u64, terms: Terms) -> Result<String, bool> {
    let mut work = vec![7; 2_000_000];
    let mut output = vec![0; 25_000];
    model_or_mark(find(sheet, low, high, told_no(terms), &mut work, &mut output), &output)
}

/// The same by the plain search.
fn found_plain(sheet: &[u8], low: u64, high: u64) -> Result<String, bool> {
    let mut output = vec![0; 1_000];
    model_or_mark(find_plain(sheet, low, high, &mut output), &output)
}

fn model_or_mark(search: Result<Search, Refusal>, output: &[u8]) -> Result<String, bool> {
    match search.expect("it is searched") {
        Search::Found { length, .. } => Ok(String::from_utf8_lossy(&output[..length]).into_owned()),
        Search::None { settled, .. } => Err(settled),
        Search::Stopped { .. } => panic!("it is stopped"),
    }
}

#[test]
fn two_constants() {
    let sheet = sheet("two-constants");
    assert_eq!(
        read(sheet),
        Ok(Counts {
            functions: 2,
            predicates: 0,
            clauses: 1
        })
    );
    assert_eq!(
        clauses_at(sheet, 2),
        "p cnf 4 6\n1 2 0\n-1 -2 0\n3 4 0\n-3 -4 0\n-3 -1 0\n-4 -2 0\n"
    );
    assert_eq!(found(sheet, 1, 1), Err(false));
    assert_eq!(found(sheet, 1, 3).as_deref(), Ok("case=1\nsize=2\na=1\nb=2\n"));
    let back = |setting: &[u8]| text_of(|output| read_back(sheet, 2, AsWritten, setting, output));
    assert_eq!(back(&[0, 1, 1, 0]).as_deref(), Ok("case=1\nsize=2\na=2\nb=1\n"));
    assert_eq!(back(&[1, 1, 0, 0]), refused(Reason::NotOneResult, NO_PLACE));
}

#[test]
fn settings_of_cases() {
    let mut output = [7; 6];
    let constants = sheet("two-constants");
    assert_eq!(setting(constants, b"case=1\nsize=2\na=2\nb=1\n", &mut output), Ok(4));
    assert_eq!(output, [0, 1, 1, 0, 7, 7]);
    // no model
    assert_eq!(setting(constants, b"case=1\nsize=2\na=2\nb=2\n", &mut output), Ok(4));
    assert_eq!(output, [0, 1, 0, 1, 7, 7]);
    // V is that of the case's own size
    let short = Refusal {
        reason: Reason::OutputTooShort,
        line: 0,
        column: 0,
        needed: 8,
    };
    assert_eq!(
        setting(constants, b"case=1\nsize=4\na=1\nb=1\n", &mut output),
        Err(short)
    );
    assert_eq!(
        setting(constants, b"case=1\nsize=2\na=2\nb=3\n", &mut output),
        refused(Reason::BadCase, (4, 3))
    );
    assert_eq!(output, [0, 1, 0, 1, 7, 7]);
    let with_predicate = sheet_of(&["a/0"], &["p/1"], &["+ p a", "- p A + = A a"]);
    assert_eq!(
        setting(&with_predicate, b"case=1\nsize=2\na=1\np=0 1\n", &mut output),
        Ok(4)
    );
    assert_eq!(output, [1, 0, 0, 1, 7, 7]);
    let nothing = sheet_of(&[], &[], &[""]);
    assert_eq!(setting(&nothing, b"case=1\nsize=8\n", &mut []), Ok(0));
}

#[test]
fn answers_of_solvers() {
    let constants = sheet("two-constants");
    let mut output = [7; 24];
    let taken = b"c picosat\ns SATISFIABLE\nv 2 -1\ncnf\nv 3\nv -4 0\nc\n";
    assert_eq!(
        from_solver(constants, 2, taken, &mut output),
        Ok(SolverAnswer::Case { length: 22 })
    );
    assert_eq!(output, *b"case=1\nsize=2\na=2\nb=1\n\x07\x07");
    let mut reason = |size: u64, text: &str| {
        let answer = from_solver(constants, size, text.as_bytes(), &mut output);
        let refusal = answer.expect_err("it is refused");
        assert_eq!((refusal.line, refusal.column), NO_PLACE);
        refusal.reason
    };
    // 8 before 18, 14 before 19
    assert_eq!(reason(9, "x"), Reason::BadSize);
    assert_eq!(reason(2, "s SATISFIABLE\nv 1 2 3 4 0\n"), Reason::NotOneResult);
    assert_eq!(reason(2, "s SATISFIABLE\nv 1 -2 3 -4 0\n"), Reason::NoModel);
    for bad in [
        "",
        "s SATISFIABLE\n",
        "s SATISFIABLE\nv 1 -2 3 0\n",
        "s SATISFIABLE\nv 1 -2 -3 4 5 0\n",
        "s SATISFIABLE\nv 1 -2 -3 4 0 0\n",
        "s SATISFIABLE\nv 1 -2 -3 4\n",
        "s SATISFIABLE\nv 1 -2 -3 4 0",
        "s UNKNOWN\n",
        "s UNSATISFIABLE\nv 0\n",
    ] {
        assert_eq!(reason(2, bad), Reason::BadAnswer, "{bad}");
    }
    // the solver's claim, though there is a model; the output may be of any length
    let claim = b"s UNSATISFIABLE\n";
    assert_eq!(from_solver(constants, 2, claim, &mut []), Ok(SolverAnswer::ClaimedNone));
    // no variable at all: 0 stands there all the same
    let nothing = sheet_of(&[], &[], &[]);
    let answer = |text: &[u8]| from_solver(&nothing, 8, text, &mut [0; 14]);
    assert_eq!(answer(b"s SATISFIABLE\nv 0\n"), Ok(SolverAnswer::Case { length: 14 }));
    assert_eq!(answer(b"s SATISFIABLE\n").unwrap_err().reason, Reason::BadAnswer);
}

/// The clauses on constants come after those of the cells: at size 3 a is 1 to 3, f is 4 to 12, b is 13 to 15, c is 16 to 18.
#[test]
fn constant_clauses() {
    let sheet = sheet_of(&["a/0", "f/1", "b/0", "c/0"], &[], &["- = a b"]);
    let text = text_of(|output| write(&sheet, 3, asked(AsWritten), output)).expect("it is written");
    let instances = "-13 -1 0\n-14 -2 0\n-15 -3 0\n";
    let constants = "1 0\n\
                     13 14 0\n-14 1 0\n\
                     16 17 18 0\n-17 1 13 0\n-18 2 14 0\n";
    assert!(text.starts_with("p cnf 18 33\n"));
    assert!(text.ends_with(&format!("-17 -18 0\n{constants}{instances}")));
    // none is asked for
    assert!(clauses_at(&sheet, 3).starts_with("p cnf 18 27\n"));
    assert!(clauses_at(&sheet, 3).ends_with(&format!("-17 -18 0\n{instances}")));
    // more constants than elements
    let text = text_of(|output| write(&sheet, 2, asked(AsWritten), output)).expect("it is written");
    let (_, rest) = text.split_once("-9 -10 0\n").expect("the last cell is c");
    assert!(rest.starts_with("1 0\n7 8 0\n-8 1 0\n9 10 0\n-10 1 7 0\n"));
    // helpers are no declared constants: at size 1 a is 1, f is 2, f a is 3
    let deep = sheet_of(&["a/0", "f/1"], &[], &["- = f a a"]);
    let text = text_of(|output| write(&deep, 1, asked(Named), output)).expect("it is written");
    assert!(text.starts_with("p cnf 3 6\n1 0\n2 0\n3 0\n1 0\n-1 -2 3 0\n"), "{text}");
}

/// Where other functions come first, the least case of all may not obey the constant clauses.
#[test]
fn least_models_that_obey() {
    let mapped = sheet_of(&["f/1", "a/0"], &[], &["+ = f A f B", "- = f a a"]);
    let found_by = |options: FindOptions, low: u64, high: u64| {
        let (mut work, mut output) = (vec![7; 2_000], vec![0; 100]);
        model_or_mark(find(&mapped, low, high, options, &mut work, &mut output), &output)
    };
    let (yes, no) = (FindOptions::default(), told_no(AsWritten));
    assert_eq!(found_by(no, 1, 3).as_deref(), Ok("case=1\nsize=2\nf=1 1\na=2\n"));
    assert_eq!(found_by(yes, 1, 3).as_deref(), Ok("case=1\nsize=2\nf=2 2\na=1\n"));
    assert_eq!(found_by(yes, 3, 3).as_deref(), Ok("case=1\nsize=3\nf=2 2 2\na=1\n"));
    assert_eq!(found_by(yes, 1, 1), Err(false));
    assert_eq!(found_by(no, 1, 1), Err(false));
}

#[test]
fn terms_are_lifted_in_order() {
    let sheet = sheet_of(&["a/0", "b/0", "f/2"], &["p/2"], &["+ p f a b f b a"]);
    // at size 1 each literal has one number: a is 1, b is 2, f is 3, p is 4
    assert_eq!(clauses_at(&sheet, 1), "p cnf 4 4\n1 0\n2 0\n3 0\n-1 -2 -3 -3 4 0\n");
}

#[test]
fn equalities_of_variables() {
    let all_equal = sheet_of(&[], &[], &["+ = A B"]);
    assert_eq!(found(&all_equal, 1, 1).as_deref(), Ok("case=1\nsize=1\n"));
    assert_eq!(clauses_at(&all_equal, 2), "p cnf 0 2\n0\n0\n");
    let none_equal = sheet_of(&[], &[], &["- = A B"]);
    for size in 1..=8 {
        assert_eq!(clauses_at(&none_equal, size), "p cnf 0 1\n0\n");
    }
}

#[test]
fn the_empty_clause_and_no_clause() {
    assert_eq!(found(&sheet_of(&[], &[], &[""]), 1, 8), Err(true));
    let nothing = sheet_of(&[], &[], &[]);
    assert_eq!(found(&nothing, 3, 8).as_deref(), Ok("case=1\nsize=3\n"));
}

/// Settled: low is 1, no function takes an argument, high is at least the number of constants.
#[test]
fn settled() {
    let all_equal = sheet_of(&[], &[], &["+ = A B"]);
    assert_eq!(found(&all_equal, 3, 5), Err(false));
    assert_eq!(found(&all_equal, 1, 1).as_deref(), Ok("case=1\nsize=1\n"));
    let never = |functions: &[&str]| sheet_of(functions, &["p/0"], &["+ p", "- p"]);
    assert_eq!(found(&never(&[]), 1, 1), Err(true));
    assert_eq!(found(&never(&[]), 2, 8), Err(false));
    assert_eq!(found(&never(&["a/0"]), 1, 1), Err(true));
    assert_eq!(found(&never(&["a/0", "b/0"]), 1, 1), Err(false));
    assert_eq!(found(&never(&["a/0", "b/0"]), 1, 2), Err(true));
    assert_eq!(found(&never(&["a/0", "b/0"]), 2, 2), Err(false));
    assert_eq!(found(&never(&["f/1"]), 1, 8), Err(false));
}

#[test]
fn least_models() {
    let moved = sheet_of(&["f/1"], &[], &["- = f A A"]);
    assert_eq!(found(&moved, 1, 1), Err(false));
    assert_eq!(found(&moved, 1, 2).as_deref(), Ok("case=1\nsize=2\nf=2 1\n"));
    assert_eq!(found(&moved, 3, 3).as_deref(), Ok("case=1\nsize=3\nf=2 1 1\n"));
    let single = sheet_of(&["a/0"], &["p/1"], &["+ p a", "- p A + = A a"]);
    assert_eq!(found(&single, 2, 2).as_deref(), Ok("case=1\nsize=2\na=1\np=1 0\n"));
}

/// A choice is made where a variable is unset, no clause is wholly false and none forces a variable.
#[test]
fn choices() {
    let search = |sheet: &[u8], (low, high): (u64, u64), options: FindOptions| {
        let (mut work, mut output) = (vec![7; 10_000], vec![0; 200]);
        find(sheet, low, high, options, &mut work, &mut output).expect("it is searched")
    };
    let made = |sheet: &[u8], sizes: (u64, u64)| search(sheet, sizes, told_no(AsWritten)).choices();
    // a is 1; with the constant clauses that is forced
    let constants = sheet("two-constants");
    assert_eq!(made(constants, (1, 1)), 0);
    assert_eq!(made(constants, (1, 3)), 1);
    assert_eq!(search(constants, (1, 3), FindOptions::default()).choices(), 0);
    // also where all clauses are true, or there is none: each statement is a choice, and of each cell the first value
    assert_eq!(made(&sheet_of(&[], &["p/1", "o/0"], &[]), (3, 3)), 4);
    assert_eq!(made(&sheet_of(&["f/1"], &[], &[]), (3, 3)), 3);
    assert_eq!(made(&sheet_of(&[], &["p/0"], &["+ p - p"]), (1, 1)), 1);
    // a clause of one literal forces it, also where it stands there twice
    assert_eq!(made(&sheet_of(&[], &["p/0"], &["+ p"]), (1, 1)), 0);
    assert_eq!(
        made(&sheet_of(&[], &["p/0", "q/0"], &["+ p + p", "- p + q"]), (1, 1)),
        0
    );
    // no comes first for p and fails; yes, which fails too, is no choice; so at every size
    let never = sheet_of(&[], &["p/0", "q/0"], &["+ p + q", "+ p - q", "- p + q", "- p - q"]);
    assert_eq!(made(&never, (1, 1)), 1);
    assert_eq!(made(&never, (1, 3)), 3);
    assert_eq!(made(&sheet_of(&[], &["p/0"], &[""]), (1, 3)), 0);
    // what the first size leaves of the allowance is the second's
    let allowed = |allowance: u64| {
        let options = FindOptions {
            allowance,
            ..told_no(AsWritten)
        };
        search(&never, (1, 3), options)
    };
    let (settled, choices) = (true, 3);
    for allowance in 0..3 {
        let (size, choices) = (allowance + 1, allowance);
        assert_eq!(allowed(allowance), Search::Stopped { size, choices });
    }
    assert_eq!(allowed(3), Search::None { settled, choices });
    assert_eq!(allowed(1_000_000), Search::None { settled, choices });
}

/// 1,000,000 choices can be allowed, after 8 and before 9.
#[test]
fn limits_of_the_allowance() {
    let many = sheet_of(&[], &["q/3"], &["+ q A B C + q D E F"; 4]);
    let search = |high: u64, allowance: u64| {
        let options = FindOptions {
            allowance,
            ..FindOptions::default()
        };
        find(&many, 1, high, options, &mut [], &mut [])
    };
    assert_eq!(search(9, 1_000_001), refused(Reason::BadSize, NO_PLACE));
    assert_eq!(search(8, 1_000_001), refused(Reason::AllowanceTooLarge, NO_PLACE));
    assert_eq!(search(8, u64::MAX), refused(Reason::AllowanceTooLarge, NO_PLACE));
    assert_eq!(search(8, 1_000_000), refused(Reason::TooManyInstances, NO_PLACE));
}

/// Cells in order, the least value first: the specification's examples again, with the marks.
#[test]
fn plain_searches() {
    let constants = sheet("two-constants");
    assert_eq!(found_plain(constants, 1, 1), Err(false));
    assert_eq!(
        found_plain(constants, 1, 3).as_deref(),
        Ok("case=1\nsize=2\na=1\nb=2\n")
    );
    let moved = sheet_of(&["f/1"], &[], &["- = f A A"]);
    assert_eq!(found_plain(&moved, 1, 1), Err(false));
    assert_eq!(found_plain(&moved, 1, 2).as_deref(), Ok("case=1\nsize=2\nf=2 1\n"));
    assert_eq!(found_plain(&moved, 3, 3).as_deref(), Ok("case=1\nsize=3\nf=2 1 1\n"));
    let single = sheet_of(&["a/0"], &["p/1"], &["+ p a", "- p A + = A a"]);
    assert_eq!(
        found_plain(&single, 2, 2).as_deref(),
        Ok("case=1\nsize=2\na=1\np=1 0\n")
    );
    assert_eq!(found_plain(&sheet_of(&[], &[], &[""]), 1, 8), Err(true));
    assert_eq!(found_plain(&sheet_of(&[], &[], &[""]), 2, 8), Err(false));
    assert_eq!(
        found_plain(&sheet_of(&[], &[], &[]), 3, 8).as_deref(),
        Ok("case=1\nsize=3\n")
    );
}

/// 64 cells are taken, 65 are refused: after 8, before 11, and by high alone.
#[test]
fn limits_of_the_plain_search() {
    let taken = sheet_of(&[], &["r/2"], &[]);
    let mut output = [7; 144];
    let (size, length, choices) = (8, 144, 0);
    assert_eq!(
        find_plain(&taken, 8, 8, &mut output),
        Ok(Search::Found { size, length, choices })
    );
    let table = ["r=0", &" 0".repeat(63), "\n"].concat();
    assert_eq!(output[14..], *table.as_bytes());
    let refused_cells = sheet_of(&["a/0"], &["r/2"], &[]);
    let mut reason = |low: u64, high: u64| find_plain(&refused_cells, low, high, &mut output[..1]);
    assert_eq!(reason(1, 8), refused(Reason::TooManyCells, NO_PLACE));
    assert_eq!(reason(0, 8), refused(Reason::BadSize, NO_PLACE));
    assert_eq!(reason(2, 1), refused(Reason::BadSize, NO_PLACE));
    assert_eq!(reason(1, 7).expect_err("a byte is no room").needed, 118);
    assert_eq!(output[14..], *table.as_bytes());
}

/// Two helpers, numbered after the predicate; their clauses stand in front.
#[test]
fn named_terms() {
    let sheet = sheet_of(&["a/0", "b/0", "f/2"], &["p/2"], &["+ p f a b f b a"]);
    // at size 1 a is 1, b is 2, f is 3, p is 4, f a b is 5 and f b a is 6
    assert_eq!(
        clauses_of(&sheet, 1, Named),
        "p cnf 6 8\n1 0\n2 0\n3 0\n5 0\n6 0\n-1 -2 -3 5 0\n-2 -1 -3 6 0\n-5 -6 4 0\n"
    );
    assert!(clauses_of(&sheet, 2, Named).starts_with("p cnf 20 "));
    let least = "case=1\nsize=2\na=1\nb=1\nf=1 1 1 1\np=1 0 0 0\n";
    assert_eq!(found_of(&sheet, 2, 2, Named).as_deref(), Ok(least));
    assert_eq!(found(&sheet, 2, 2).as_deref(), Ok(least));
    // helpers have cells in settings, but none in cases, and a value that need not be their term's
    let declared = [1, 0, 1, 0, 1, 0, 1, 0, 1, 0, 1, 0, 1, 0, 0, 0];
    let back = |helpers: &[u8]| {
        let setting = [&declared[..], helpers].concat();
        text_of(|output| read_back(&sheet, 2, Named, &setting, output))
    };
    assert_eq!(back(&[1, 0, 1, 0]).as_deref(), Ok(least));
    assert_eq!(back(&[1, 0, 0, 1]).as_deref(), Ok(least));
    assert_eq!(back(&[1, 0, 1, 1]), refused(Reason::NotOneResult, NO_PLACE));
    assert_eq!(back(&[0, 0, 1, 0]), refused(Reason::NotOneResult, NO_PLACE));
    assert_eq!(back(&[1, 0, 2, 0]), refused(Reason::BadSetting, NO_PLACE));
    assert_eq!(back(&[]), refused(Reason::BadSetting, NO_PLACE));
}

/// Which terms are named, at size 1: a is 1, f is 2, g is 3, p is 4, r is 5, and helpers come after these.
#[test]
fn outermost_terms_are_named_and_shared() {
    let clauses = |clauses: &[&str]| {
        let sheet = sheet_of(&["a/0", "f/1", "g/2"], &["p/1", "r/2"], clauses);
        let text = clauses_of(&sheet, 1, Named);
        let (_, instances) = text.split_once("3 0\n").expect("the cells of g");
        let helpers = text.lines().next().map(|header| header.starts_with("p cnf 5 "));
        assert_eq!(helpers, Some(!instances.contains('6')), "{text}");
        instances.to_string()
    };
    // constants and terms with variables are not named
    assert_eq!(clauses(&["+ p a - p f A"]), "-1 -2 4 -4 0\n");
    // equal terms share a name in a clause and over clauses
    assert_eq!(
        clauses(&["+ r f a f a", "- p f a"]),
        "6 0\n-1 -2 6 0\n-6 5 0\n-6 -4 0\n"
    );
    // inner terms have no name of their own there, also where another clause names them
    assert_eq!(
        clauses(&["+ p f f a", "- p f a"]),
        "6 0\n7 0\n-1 -2 -2 6 0\n-1 -2 7 0\n-6 4 0\n-7 -4 0\n"
    );
    // a term with a variable keeps its place, and its fixed arguments are named
    assert_eq!(clauses(&["+ p g A f a"]), "6 0\n-1 -2 6 0\n-6 -3 4 0\n");
    // the left side of an equality too
    assert_eq!(clauses(&["+ = f a A"]), "6 0\n-1 -2 6 0\n6 0\n");
}

/// Limit 7 is that of the clauses with the names put in and of the helpers' own; its column is 1.
#[test]
fn limits_with_named_terms() {
    let sheet = |clauses: &[&str]| sheet_of(&["a/0", "b/0", "f/1"], &["p/1", "r/2"], clauses);
    let deep = |times: usize, constant: &str| "f ".repeat(times) + constant;
    let mut room = vec![0; 100_000];
    let mut at_one =
        |clause: &str, terms: Terms| write(&sheet(&["+ p a", clause]), 1, not_asked(terms), &mut room).map(|_| ());
    let too_large = refused(Reason::ClauseTooLarge, (11, 1));
    // eight and eight variables as written, two with the names put in
    let both = format!("+ r {} {}", deep(7, "a"), deep(7, "b"));
    assert_eq!(at_one(&both, AsWritten), too_large);
    assert_eq!(at_one(&both, Named), Ok(()));
    // ten variables as written, and eleven in the helper's own clause
    let ten = format!("+ = {} a", deep(10, "a"));
    assert_eq!(at_one(&ten, AsWritten), Ok(()));
    assert_eq!(at_one(&ten, Named), too_large);
    assert_eq!(at_one(&format!("+ p {}", deep(9, "a")), Named), Ok(()));
    assert_eq!(at_one(&format!("+ p {}", deep(10, "a")), Named), too_large);
    // 112 words as written, 48 with the names put in
    let words = ["+ p f f f f a"; 16].join(" ") + " ";
    assert_eq!(
        at_one(words.trim_end(), AsWritten),
        refused(Reason::ClauseTooLarge, (11, 136))
    );
    assert_eq!(at_one(words.trim_end(), Named), Ok(()));
    // a 17th literal is told at the line's start
    assert_eq!(at_one(&(words + "+ p a"), Named), too_large);
}

/// 32 terms are named, 33 are refused: after the sheet's numbers and before 8.
#[test]
fn limits_of_helpers() {
    let constants: Vec<String> = (0..11).map(|i| format!("c{i}/0")).collect();
    let functions: Vec<&str> = constants.iter().map(String::as_str).chain(["g/2"]).collect();
    let sheet = |count: usize, last: &str| {
        let clauses: Vec<String> = (0..count).map(|i| format!("+ p g c{} c{}", i / 6, i % 6)).collect();
        let clauses: Vec<&str> = clauses.iter().map(String::as_str).chain([last]).collect();
        sheet_of(&functions, &["p/1"], &clauses)
    };
    let mut room = vec![0; 10_000];
    let mut reason =
        |sheet: &[u8], size: u64| write(sheet, size, not_asked(Named), &mut room).map_err(|refusal| refusal.reason);
    assert!(reason(&sheet(32, ""), 1).is_ok());
    // a name that is known is no new one
    assert!(reason(&sheet(32, "- p g c0 c0"), 1).is_ok());
    assert_eq!(reason(&sheet(32, ""), 9), Err(Reason::BadSize));
    assert_eq!(reason(&sheet(33, ""), 9), Err(Reason::TooManyHelpers));
    assert_eq!(reason(&sheet(33, "+ p"), 9), Err(Reason::NotAClause));
    assert_eq!(
        write(&sheet(33, ""), 9, not_asked(AsWritten), &mut []),
        refused(Reason::BadSize, NO_PLACE)
    );
}

#[test]
fn limits() {
    let wide = |count: usize| sheet_of(&[], &["q/3"], &vec!["+ q A B C + q D E F"; count]);
    let mut room = vec![0; 20_000_000];
    assert!(write(&wide(3), 8, not_asked(AsWritten), &mut room).is_ok());
    assert_eq!(
        write(&wide(4), 8, not_asked(AsWritten), &mut room),
        refused(Reason::TooManyInstances, NO_PLACE)
    );
    let nothing = sheet_of(&[], &[], &[]);
    assert_eq!(write(&nothing, 8, not_asked(AsWritten), &mut room), Ok(10));
    assert_eq!(
        write(&nothing, 0, not_asked(AsWritten), &mut room),
        refused(Reason::BadSize, NO_PLACE)
    );
    assert_eq!(
        write(&nothing, 9, not_asked(AsWritten), &mut room),
        refused(Reason::BadSize, NO_PLACE)
    );
    let literals = |count: usize| sheet_of(&[], &["p/0"], &[&vec!["+ p"; count].join(" ")]);
    assert!(read(&literals(16)).is_ok());
    assert_eq!(read(&literals(17)), refused(Reason::ClauseTooLarge, (6, 72)));
    assert_eq!(read(b""), refused(Reason::Layout, (1, 1)));
}

#[test]
fn the_lectures_group_of_six() {
    assert_eq!(judge(sheet("group"), GROUP_CASE), Ok(true));
    let other = String::from_utf8_lossy(GROUP_CASE).replace("b=3", "b=2");
    assert_eq!(judge(sheet("group"), other.as_bytes()), Ok(false));
}
