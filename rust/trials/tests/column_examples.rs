//! Examples of refused sheets and cases with their lines and columns, on the proved library and on the reference.

use nesskettle_reference::Terms::{AsWritten, Named};
use nesskettle_reference::{self as reference, sheet_of, Reason, Refusal};
use nesskettle_trials::options::{not_asked, told_no};
use nesskettle_trials::places::marked;

/// Every call refuses the marked sheet with this reason, there.
fn refused(sheet: &str, reason: Reason) {
    let (sheet, line, column) = marked(sheet);
    let refusal = Refusal {
        reason,
        line,
        column,
        needed: 0,
    };
    let sheet = sheet.as_bytes();
    for o in [nesskettle::OPERATIONS, reference::OPERATIONS] {
        let shown = sheet.escape_ascii();
        assert_eq!((o.read)(sheet), Err(refusal), "{}: read {shown}", o.name);
        assert_eq!((o.judge)(sheet, b"x"), Err(refusal), "{}: judge {shown}", o.name);
        // where terms are named, a clause that is too large as written may be taken
        let all = [AsWritten, Named];
        let ways = if reason == Reason::ClauseTooLarge {
            &all[..1]
        } else {
            &all
        };
        for &terms in ways {
            let written = (o.write)(sheet, 0, not_asked(terms), &mut []);
            assert_eq!(written, Err(refusal), "{}: write {shown}", o.name);
            let back = (o.read_back)(sheet, 0, terms, b"x", &mut []);
            assert_eq!(back, Err(refusal), "{}: read back {shown}", o.name);
            let found = (o.find)(sheet, 0, 0, told_no(terms), &mut [], &mut []);
            assert_eq!(found, Err(refusal), "{}: find {shown}", o.name);
        }
    }
}

/// Line 2, after the first line.
fn count_refused(line: &str, reason: Reason) {
    refused(&format!("sheet=1\n{line}"), reason)
}

/// Line 4, after a function `a` was declared.
fn symbol_refused(line: &str, reason: Reason) {
    refused(&format!("sheet=1\nfuns=2\nfun=a/0\n{line}"), reason)
}

const DECLARED: &str = "sheet=1\nfuns=2\nfun=a/0\nfun=f/1\npreds=2\npred=p/1\npred=q/3\n";

/// The only clause line, where `a`, `f` of one argument, `p` of one and `q` of three are declared.
fn clause_refused(line: &str, reason: Reason) {
    refused(&format!("{DECLARED}clauses=1\n{line}"), reason)
}

#[test]
fn sheets_not_as_laid_out() {
    for sheet in [
        "^",
        "^\n",
        "^x",
        "sheet^",
        "sheet=^",
        "sheet=^\n",
        "sheet=^2\n",
        "sheet=1^",
        "sheet=1^ \n",
        "sheet=1^\r\n",
        "^Sheet=1\n",
        "sheet=1^funs=0\n",
        "sheet=1\n^",
    ] {
        refused(sheet, Reason::Layout);
    }
    for line in [
        "^\n",
        "^preds=0\n",
        "fun^=a/0\n",
        "funs^ =0\n",
        "funs=^",
        "funs=^\n",
        "funs=^x\n",
        "funs=^+1\n",
        "funs=^ 1\n",
        "funs=0^0\n",
        "funs=0^1\n",
        "funs=1^x",
        "funs=1^x\n",
        "funs=12^3\n",
        "funs=1^",
        "funs=13^",
        "funs=99^ \n",
        "funs=1^\r\n",
    ] {
        count_refused(line, Reason::Layout);
    }
    for line in [
        "^",
        "^preds=0\n",
        "fun^",
        "fun^s=1\n",
        "fun^ =b/0\n",
        // anything after the key is made good by an arity
        "fun=^",
        "fun=^\n",
        "fun=b^\n",
        "fun=b/^\n",
        "fun=b/x^\n",
        "fun=b/12^\n",
        "fun=b/0 ^\n",
        "fun=B/x^\n",
        "fun=b/0\r^\n",
        "fun=b/0^",
        "fun=B/9^",
    ] {
        symbol_refused(line, Reason::Layout);
    }
    for line in [
        "^",
        "c^ase=1\n",
        "clause^",
        "clause^s=\n",
        "clause=^",
        "clause=+ p a^",
        "clause=x  x^",
        "clause=\n^\n",
        "clause=\n^x",
        "clause=\n^clause=\n",
    ] {
        clause_refused(line, Reason::Layout);
    }
}

#[test]
fn numbers_over_their_limits() {
    count_refused("funs=^13\n", Reason::OverLimit);
    count_refused("funs=^99\n", Reason::OverLimit);
    refused("sheet=1\nfuns=0\npreds=^13\n", Reason::OverLimit);
    refused("sheet=1\nfuns=0\npreds=0\nclauses=^65\n", Reason::OverLimit);
    symbol_refused("fun=b/^4\n", Reason::OverLimit);
    symbol_refused("fun=longer_name/^9\n", Reason::OverLimit);
    symbol_refused("fun=A/^4\n", Reason::OverLimit);
    symbol_refused("fun=/^4\n", Reason::OverLimit);
}

#[test]
fn names_badly_formed_or_repeated() {
    for line in [
        "fun=^/0\n",
        "fun=^B/0\n",
        "fun=^b/1/2\n",
        "fun=^b B/0\n",
        "fun=^abcdefghijklm/0\n",
        "fun=^b\r/0\n",
        "fun=^a/0\n",
        "fun=^a/1\n",
        "fun=b/0\npreds=1\npred=^b/0\n",
    ] {
        symbol_refused(line, Reason::BadName);
    }
}

#[test]
fn unknown_and_empty_words() {
    for line in [
        "clause=^ \n",
        "clause=^ + p a\n",
        "clause=+ p a ^\n",
        "clause=+ ^ p a\n",
        "clause=+ p ^x + y\n",
        "clause=^x\n",
        "clause=+ p ^I\n",
        "clause=+ p ^AB\n",
        "clause=+ p ^a\r\n",
        "clause=+ ^p\ta\n",
        "clause=+ + ^x\n",
        "clause=p ^ x\n",
    ] {
        clause_refused(line, Reason::UnknownWord);
    }
}

#[test]
fn words_that_are_no_clause() {
    for line in [
        "clause=^p a\n",
        "clause=^A\n",
        "clause=+^\n",
        "clause=+ ^+ p a\n",
        "clause=+ ^A\n",
        "clause=+ ^f a\n",
        "clause=+ p^\n",
        "clause=+ p f^\n",
        "clause=+ p ^p\n",
        "clause=+ p a ^a\n",
        "clause=+ p a +^\n",
        "clause=+ =^\n",
        "clause=+ = a^\n",
        "clause=+ = ^= a\n",
        "clause=+ q A B ^- p a\n",
        "clause=+ p f f f f^\n",
    ] {
        clause_refused(line, Reason::NotAClause);
    }
    // also where the clause is too large
    let long = "+ p f A ".repeat(20);
    clause_refused(&format!("clause={long}^a\n"), Reason::NotAClause);
    clause_refused(&format!("clause={long}+^\n"), Reason::NotAClause);
}

#[test]
fn clauses_over_their_limits() {
    let over =
        |before: String, after: &str| clause_refused(&format!("clause={before}^{after}\n"), Reason::ClauseTooLarge);
    // literals alone: 17 of 3 words, and more
    over("- p A ".repeat(16), "+ p A");
    over("- p A ".repeat(16), "+ p A - p A - p A");
    // words alone: 13 literals of 5 words, 12 and two of 3
    over("+ q A A A ".repeat(12) + "+ q A A ", "A");
    over("+ q A A A ".repeat(12) + "+ p A - ", "p A");
    // both: 17 literals of 5 words, 17 of 4, 22 of 3
    over(
        "+ q A A A ".repeat(12) + "+ q A A ",
        &("A".to_string() + &" + q A A A".repeat(4)),
    );
    over("+ p f A ".repeat(16), "+ p f A");
    over("+ p A ".repeat(16), "+ p A ".repeat(6).trim_end());
    // variables alone: f f .. f a has eleven terms
    refused(
        &format!("{DECLARED}clauses=1\n^clause=+ p {}a\n", "f ".repeat(10)),
        Reason::ClauseTooLarge,
    );
    // variables and words, variables and literals
    let deep = format!("+ p {}a ", "f ".repeat(10));
    over(format!("{deep}{}+ ", "+ q A A A ".repeat(10)), "p A");
    over(format!("{deep}{}", "+ p A ".repeat(15)), "+ p A");
}

/// The case of a sheet with `a`, `f` of one argument, `p` of none and `q` of two.
fn case_refused(case: &str) {
    let (case, line, column) = marked(case);
    let refusal = Refusal {
        reason: Reason::BadCase,
        line,
        column,
        needed: 0,
    };
    let sheet = sheet_of(&["a/0", "f/1"], &["p/0", "q/2"], &["+ p"]);
    for o in [nesskettle::OPERATIONS, reference::OPERATIONS] {
        assert_eq!((o.judge)(&sheet, case.as_bytes()), Err(refusal), "{}: {case}", o.name);
    }
}

#[test]
fn cases_not_as_laid_out() {
    for case in [
        "^",
        "^\n",
        "^sheet=1\n",
        "case=^2\n",
        "case=1^",
        "case=1^ \n",
        "case=1\n^",
        "case=1\n^a=1\n",
    ] {
        case_refused(case);
    }
    for line in [
        "size=^",
        "size=^\n",
        "size=^0\n",
        "size=^9\n",
        "size=^x",
        "size=2^",
        "size=2^0\n",
        "size^ =2\n",
    ] {
        case_refused(&format!("case=1\n{line}"));
    }
    for lines in [
        "^",
        "^\n",
        "^f=1 1\n",
        "a^",
        "a^ =1\n",
        "a=^\n",
        "a=^0\n",
        "a=^3\n",
        "a=1^ 1\n",
        "a=1^",
        "a=1\n^",
        "a=1\nf=^ 1\n",
        "a=1\nf=1^1\n",
        "a=1\nf=1^\t1\n",
        "a=1\nf=1 ^ 1\n",
        "a=1\nf=1^\n",
        "a=1\nf=1 ^\n",
        "a=1\nf=1 ^3\n",
        "a=1\nf=1 2^ \n",
    ] {
        case_refused(&format!("case=1\nsize=2\n{lines}"));
    }
    for lines in [
        "p=^2\n",
        "p=1\nq=0 1 0 ^2\n",
        "p=1\nq=0 1 0 1^ 1\n",
        "p=1\nq=0 1 0 1^",
        "p=1\nq=0 1 0 1\n^\n",
        "p=1\nq=0 1 0 1\n^x",
        "p=1\nq=0 1 0 1\n^q=0 1 0 1\n",
    ] {
        case_refused(&format!("case=1\nsize=2\na=1\nf=1 2\n{lines}"));
    }
}

#[test]
fn no_line_and_no_column() {
    fn unplaced<T: std::fmt::Debug>(answer: Result<T, Refusal>, reason: Reason) {
        let refusal = answer.expect_err("it is refused");
        assert_eq!((refusal.reason, refusal.line, refusal.column), (reason, 0, 0));
    }
    let sheet = sheet_of(&["a/0", "b/0"], &[], &["- = a b"]);
    let many = sheet_of(&[], &["q/3"], &["+ q A B C + q D E F"; 4]);
    for o in [nesskettle::OPERATIONS, reference::OPERATIONS] {
        unplaced((o.read)(&[b'x'; 16_385]), Reason::SheetTooLong);
        unplaced((o.write)(&sheet, 9, not_asked(AsWritten), &mut []), Reason::BadSize);
        unplaced(
            (o.write)(&many, 8, not_asked(AsWritten), &mut []),
            Reason::TooManyInstances,
        );
        unplaced(
            (o.find)(&sheet, 1, 1, told_no(AsWritten), &mut [], &mut []),
            Reason::WorkTooShort,
        );
        unplaced(
            (o.write)(&sheet, 2, not_asked(AsWritten), &mut []),
            Reason::OutputTooShort,
        );
        unplaced(
            (o.read_back)(&sheet, 2, AsWritten, &[2; 4], &mut []),
            Reason::BadSetting,
        );
        unplaced(
            (o.read_back)(&sheet, 2, AsWritten, &[1; 4], &mut []),
            Reason::NotOneResult,
        );
    }
}
