//! Every call does with the stack that the top README promises, also on the deepest terms that a clause of 64 words has, with
//! the most cells, and on TPTP terms of any depth: 192 kB, and 256 kB for From solver, From TPTP and Find plain.

use nesskettle::Terms::{AsWritten, Named};
use nesskettle::{explain, find, find_plain, from_solver, from_tptp, judge, read, read_back, setting, write};
use nesskettle::{least_form, renumber};
use nesskettle::{merge, WhichSheet};
use nesskettle::{FirstFailure, Reason, Search, SolverAnswer};
use nesskettle_reference::sheet_of;
use nesskettle_trials::draft::Draft;
use nesskettle_trials::options::{asked, told_yes};
use nesskettle_trials::random::Random;
use nesskettle_trials::renumbering::rearrangement;
use nesskettle_trials::solver::stating;

const STACK: usize = 192 * 1024;
/// From solver has a mark for each of up to 55,296 propositional variables on its stack, From TPTP a count and a link for each
/// of 16,384 lists, and Find plain is one call deeper for each of up to 64 cells.
const LARGE_STACK: usize = 256 * 1024;

/// A clause of one predicate at `depth` functions, one inside the other.
fn nested(depth: usize) -> Vec<u8> {
    let clause = format!("+ p {}A", "f ".repeat(depth));
    sheet_of(&["f/1"], &["p/1"], &[&clause])
}

/// Runs on a small stack: a call that needs more ends the test.
fn on_a_small_stack(run: impl FnOnce() + Send + 'static) {
    on_a_stack(STACK, run);
}

fn on_a_stack(bytes: usize, run: impl FnOnce() + Send + 'static) {
    let thread = std::thread::Builder::new().stack_size(bytes).spawn(run);
    thread.expect("a thread starts").join().expect("it ends");
}

#[test]
fn the_deepest_terms_are_refused() {
    let sheet = nested(61);
    on_a_small_stack(move || {
        let mut output = vec![0; 1000];
        let mut work = vec![0; 1000];
        assert_eq!(read(&sheet).unwrap_err().reason, Reason::ClauseTooLarge);
        assert_eq!(judge(&sheet, b"").unwrap_err().reason, Reason::ClauseTooLarge);
        assert_eq!(explain(&sheet, b"").unwrap_err().reason, Reason::ClauseTooLarge);
        assert_eq!(
            setting(&sheet, b"", &mut output).unwrap_err().reason,
            Reason::ClauseTooLarge
        );
        assert_eq!(
            renumber(&sheet, b"", b"", &mut output).unwrap_err().reason,
            Reason::ClauseTooLarge
        );
        assert_eq!(
            least_form(&sheet, b"", &mut output).unwrap_err().reason,
            Reason::ClauseTooLarge
        );
        for terms in [AsWritten, Named] {
            assert_eq!(
                write(&sheet, 2, asked(terms), &mut output).unwrap_err().reason,
                Reason::ClauseTooLarge
            );
        }
        assert_eq!(
            read_back(&sheet, 2, AsWritten, b"", &mut output).unwrap_err().reason,
            Reason::ClauseTooLarge
        );
        assert_eq!(
            find(&sheet, 1, 2, told_yes(AsWritten), &mut work, &mut output)
                .unwrap_err()
                .reason,
            Reason::ClauseTooLarge
        );
        assert_eq!(
            find_plain(&sheet, 1, 2, &mut output).unwrap_err().reason,
            Reason::ClauseTooLarge
        );
    });
    let sheet = nested(61);
    on_a_stack(LARGE_STACK, move || {
        let answer = from_solver(&sheet, 2, b"", &mut []);
        assert_eq!(answer.unwrap_err().reason, Reason::ClauseTooLarge);
    });
}

#[test]
fn the_deepest_terms_are_taken() {
    let sheet = nested(9);
    on_a_small_stack(move || {
        let mut output = vec![0; 1_000_000];
        let mut work = vec![0; 1_000_000];
        let case = b"case=1\nsize=2\nf=2 1\np=0 1\n";
        assert_eq!(judge(&sheet, case), Ok(false));
        assert_eq!(explain(&sheet, case), Ok(Some(FirstFailure::new(1, [('A', 2)]))));
        assert_eq!(setting(&sheet, case, &mut output), Ok(6));
        assert_eq!(renumber(&sheet, case, &[2, 1], &mut output), Ok(case.len()));
        assert_eq!(least_form(&sheet, case, &mut output), Ok(case.len()));
        assert!(write(&sheet, 2, asked(AsWritten), &mut output).is_ok());
        assert!(read_back(&sheet, 1, AsWritten, &[1, 1], &mut output).is_ok());
        assert!(find(&sheet, 1, 2, told_yes(AsWritten), &mut work, &mut output).is_ok());
        assert!(find_plain(&sheet, 1, 2, &mut output).is_ok());
    });
    let sheet = nested(9);
    on_a_stack(LARGE_STACK, move || {
        let answer = from_solver(&sheet, 1, b"s SATISFIABLE\nv 1 2 0\n", &mut [0; 100]);
        assert!(answer.is_ok());
    });
}

/// Constant clauses on as many constants as there can be.
#[test]
fn the_most_constants_are_taken() {
    let names: Vec<String> = (1..=12).map(|i| format!("c{i}/0")).collect();
    let names: Vec<&str> = names.iter().map(String::as_str).collect();
    let sheet = sheet_of(&names, &[], &["- = c1 c12"]);
    on_a_small_stack(move || {
        let (mut work, mut output) = (vec![0; 10_000], vec![0; 10_000]);
        assert!(write(&sheet, 8, asked(AsWritten), &mut output).is_ok());
        let found = find(&sheet, 8, 8, told_yes(Named), &mut work, &mut output);
        assert!(matches!(found, Ok(Search::Found { size: 8, .. })));
        assert!(output.starts_with(b"case=1\nsize=8\nc1=1\nc2=1\n"));
    });
}

/// Lines of thousands of words with named terms: taken, and over a limit in the last of them.
#[test]
fn long_lines_are_taken_with_named_terms() {
    let thrice = |term: &str| format!("h {term} {term} {term}");
    let thirteen = thrice(&thrice("a"));
    // 61 words
    let large = |last: &str| format!("h {} {thirteen} {last}", thrice(&thirteen));
    let literal = format!(
        "+ q {} {} {}",
        large("f f f h a a a"),
        large("g f a h a b a"),
        large("g g a a g a b")
    );
    let line = vec![literal; 12].join(" ");
    let deepest = format!("+ p {}a", "f ".repeat(9));
    let sheet = move |last: &str| {
        let functions = ["a/0", "b/0", "f/1", "g/2", "h/3"];
        sheet_of(&functions, &["p/1", "q/3"], &[&line, &deepest, last])
    };
    let many = format!("+ p {}a", "f ".repeat(4_000));
    on_a_small_stack(move || {
        let mut output = vec![0; 1_000_000];
        let mut work = vec![0; 1_000_000];
        let taken = sheet("- p f a");
        assert!(taken.len() > 4_000);
        assert!(write(&taken, 2, asked(Named), &mut output).is_ok());
        assert!(read_back(&taken, 1, Named, &[1; 12], &mut output).is_ok());
        assert!(find(&taken, 1, 2, told_yes(Named), &mut work, &mut output).is_ok());
        let refused = sheet(&many);
        let reason = Reason::ClauseTooLarge;
        assert_eq!(
            write(&refused, 2, asked(Named), &mut output).unwrap_err().reason,
            reason
        );
        assert_eq!(
            read_back(&refused, 1, Named, b"", &mut output).unwrap_err().reason,
            reason
        );
        assert_eq!(
            find(&refused, 1, 2, told_yes(Named), &mut work, &mut output)
                .unwrap_err()
                .reason,
            reason
        );
    });
}

#[test]
fn the_most_cells_are_taken() {
    let draft = Draft::most_cells();
    let (sheet, case) = (draft.sheet(), draft.case(&mut Random::new(9), 8));
    on_a_small_stack(move || {
        let (mut bytes, mut again) = (vec![0; 60_000], vec![0; 60_000]);
        assert_eq!(judge(&sheet, &case), Ok(true));
        assert_eq!(setting(&sheet, &case, &mut bytes), Ok(55_296));
        assert_eq!(
            read_back(&sheet, 8, AsWritten, &bytes[..55_296], &mut again),
            Ok(case.len())
        );
        assert_eq!(again[..case.len()], case);
        on_a_stack(LARGE_STACK, move || {
            let text = stating(&mut Random::new(10), &bytes[..55_296]);
            let length = case.len();
            assert_eq!(
                from_solver(&sheet, 8, &text, &mut bytes),
                Ok(SolverAnswer::Case { length })
            );
            assert_eq!(bytes[..length], case);
        });
    });
}

/// 64 cells filled one by one, and clauses of many letters and of nested functions judged each time.
#[test]
fn the_most_cells_of_a_plain_search_are_filled() {
    let deep = format!("+ v {}A", "f ".repeat(9));
    let many = "- p A - p f B - q C - r D - s E - t f F";
    let predicates = ["p/1", "q/1", "r/1", "s/1", "t/1", "u/1", "v/1"];
    let sheet = sheet_of(&["f/1"], &predicates, &[&deep, many]);
    on_a_stack(LARGE_STACK, move || {
        let mut output = [0; 158];
        let found = find_plain(&sheet, 8, 8, &mut output);
        assert!(matches!(found, Ok(Search::Found { length: 158, .. })));
        assert!(output.ends_with(b"v=1 0 0 0 0 0 0 0\n"));
    });
}

/// Two sheets of 64 clauses, as long as they may be, with deep terms; and the deepest ones in the second of two.
#[test]
fn large_sheets_are_merged() {
    let letter = |i: usize| char::from(b'A' + i as u8);
    let deep = "mnopqrstuvwx ".repeat(5);
    let literal = format!("+ abcdefghijkl {deep}A {deep}A {deep}A");
    let clause = |i: usize| format!("{literal} - abcdefghijkl B {} {}", letter(i / 8), letter(i % 8));
    let clauses: Vec<String> = (0..64).map(clause).collect();
    let clauses: Vec<&str> = clauses.iter().map(String::as_str).collect();
    let sheet = sheet_of(&["mnopqrstuvwx/1"], &["abcdefghijkl/3"], &clauses);
    assert!(sheet.len() > 15_000);
    let deepest = nested(61);
    on_a_small_stack(move || {
        let mut output = vec![0; 16_384];
        assert_eq!(merge(&sheet, &sheet, &mut output), Ok(sheet.len()));
        assert_eq!(output[..sheet.len()], sheet);
        let refused = merge(&sheet, &deepest, &mut output).unwrap_err();
        assert_eq!(
            (refused.refusal.reason, refused.sheet),
            (Reason::ClauseTooLarge, Some(WhichSheet::Second))
        );
    });
}

/// Every table there can be, renumbered, and its least form, which is the same before and after.
#[test]
fn the_most_cells_are_renumbered() {
    let draft = Draft::most_cells();
    let mut random = Random::new(11);
    let (sheet, case) = (draft.sheet(), draft.case(&mut random, 8));
    let list = rearrangement(&mut random, 8);
    on_a_small_stack(move || {
        let (mut twin, mut form, mut again) = (case.clone(), case.clone(), case.clone());
        assert_eq!(renumber(&sheet, &case, &list, &mut twin), Ok(case.len()));
        assert!(twin != case);
        assert_eq!(least_form(&sheet, &case, &mut form), Ok(case.len()));
        assert_eq!(least_form(&sheet, &twin, &mut again), Ok(case.len()));
        assert_eq!(form, again);
    });
}

#[test]
fn deep_tptp_terms_are_refused() {
    let text = format!("cnf(deep,axiom,p({}X{})).", "f(".repeat(20_000), ")".repeat(20_000));
    on_a_small_stack(move || {
        let mut output = vec![0; 1000];
        let refusal = from_tptp(text.as_bytes(), &mut output).unwrap_err();
        // 20,003 words, told at the full stop
        assert_eq!(
            (refusal.reason, refusal.column),
            (Reason::BeyondSheets, text.len() as u64)
        );
        let unfinished = &text.as_bytes()[..text.len() - 10];
        assert_eq!(from_tptp(unfinished, &mut output).unwrap_err().reason, Reason::NotTptp);
    });
}

#[test]
fn the_deepest_tptp_terms_are_taken() {
    let text = format!("cnf(deep,axiom,p({}X{})).", "f(".repeat(9), ")".repeat(9));
    let sheet = nested(9);
    on_a_small_stack(move || {
        let mut output = vec![0; 1000];
        assert_eq!(from_tptp(text.as_bytes(), &mut output), Ok(sheet.len()));
        assert_eq!(output[..sheet.len()], sheet);
    });
}

#[test]
fn the_deepest_tptp_terms_of_64_words_are_refused() {
    let text = format!("cnf(deep,axiom,p({}X{})).", "f(".repeat(61), ")".repeat(61));
    on_a_stack(LARGE_STACK, move || {
        let mut output = vec![0; 1000];
        // once flattened it has over ten variables
        assert_eq!(from_tptp(text.as_bytes(), &mut output).unwrap_err().reason, Reason::BeyondSheets);
    });
}
