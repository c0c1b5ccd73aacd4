//! Examples of TPTP texts, good ones with their sheets and refused ones with their places, on the proved library and on the
//! reference.

use nesskettle_reference::{self as reference, sheet_of, Reason, Refusal};
use nesskettle_trials::places::marked;

/// What both answer with enough room: the sheet or the refusal.
fn read(text: &str) -> Result<Vec<u8>, Refusal> {
    let mut answers = [nesskettle::OPERATIONS, reference::OPERATIONS].map(|operations| {
        let mut output = vec![0; 20_000];
        let length = (operations.from_tptp)(text.as_bytes(), &mut output)?;
        output.truncate(length);
        Ok(output)
    });
    assert_eq!(answers[0], answers[1], "{text}");
    std::mem::replace(&mut answers[0], Ok(Vec::new()))
}

fn gives(text: &str, functions: &[&str], predicates: &[&str], clauses: &[&str]) {
    let sheet = sheet_of(functions, predicates, clauses);
    assert_eq!(read(text), Ok(sheet), "{text}");
}

/// Each clause gives these words; its symbols are a and b, f of one argument, p and q of one.
fn clause_gives(clause: &str, words: &str) {
    let text = format!("cnf(s,r,p(a)|q(b)|f(a)=a).cnf(c,r,{clause}).");
    gives(
        &text,
        &["a/0", "b/0", "f/1"],
        &["p/1", "q/1"],
        &["+ p a + q b + = f a a", words],
    );
}

/// The marked text is refused with this reason, there.
fn refused(text: &str, reason: Reason) {
    let (text, line, column) = marked(text);
    let refusal = Refusal {
        reason,
        line,
        column,
        needed: 0,
    };
    assert_eq!(read(&text), Err(refusal), "{text}");
}

fn outside(text: &str) {
    refused(text, Reason::NotTptp)
}

fn clash(text: &str) {
    refused(text, Reason::SymbolClash)
}

fn beyond(text: &str) {
    refused(text, Reason::BeyondSheets)
}

#[test]
fn sheets() {
    gives(
        "cnf(a,axiom,p(X)|~q(f(X),b)).",
        &["f/1", "b/0"],
        &["p/1", "q/2"],
        &["+ p A - q f A b"],
    );
    gives("cnf(a,axiom,$false).", &[], &[], &[""]);
    gives("", &[], &[], &[]);
    gives(" \t\r\n", &[], &[], &[]);
    gives(
        "% both kinds\n/* of\ncomment */cnf(1, r, /***/ p). % no end of line",
        &[],
        &["p/0"],
        &["+ p"],
    );
    gives("%\n%", &[], &[], &[]);
    gives("/*/ */", &[], &[], &[]);
    gives("/* * / **/", &[], &[], &[]);
}

#[test]
fn literals() {
    clause_gives("p(X)", "+ p A");
    clause_gives("~p(X)", "- p A");
    clause_gives("~ f(X) = a", "- = f A a");
    clause_gives("f(X) != a", "- = f A a");
    clause_gives("X = Y", "+ = A B");
    clause_gives("Y = X", "+ = A B");
    clause_gives("(q(Foo) | p(X) | ~ X = Foo)", "+ q A + p B - = B A");
    clause_gives("$false | p(a) | $false", "+ p a");
    clause_gives("($false | $false)", "");
    clause_gives("p(\nf(f(/* inside */a)) )", "+ p f f a");
}

#[test]
fn names_and_roles_are_forgotten() {
    for (name, role) in [
        ("007", "conjecture"),
        ("cnf", "cnf"),
        ("a_B_9", "myRole"),
        ("x", "type"),
    ] {
        gives(&format!("cnf({name},{role},p)."), &[], &["p/0"], &["+ p"]);
    }
    gives("cnf(a,r,cnf(cnf1)).", &["cnf1/0"], &["cnf/1"], &["+ cnf cnf1"]);
}

#[test]
fn texts_that_are_no_clauses() {
    for text in [
        "^p",
        "^fof(a,r,p).",
        "^include(a).",
        "^cn",
        "^cnf2(a,r,p).",
        "cnf^[",
        "cnf(^A,r,p).",
        "cnf(^'a',r,p).",
        "cnf(a,^1,p).",
        "cnf(a,^R,p).",
        "cnf(a,r^)",
        "cnf(a,r,^)",
        "cnf(a,r,(^)).",
        "cnf(a,r,(^(p))).",
        "cnf(a,r,(p)^|q).",
        "cnf(a,r,p^,file(x)).",
        "cnf(a,r,p)^,",
        "cnf(a,r,p).^.",
        // atoms
        "cnf(a,r,p(^)).",
        "cnf(a,r,p(a^;)).",
        "cnf(a,r,X^).",
        "cnf(a,r,~X^).",
        "cnf(a,r,X^|p).",
        "cnf(a,r,~^$false).",
        "cnf(a,r,~^~p).",
        "cnf(a,r,~^(p)).",
        "cnf(a,r,~a^!=b).",
        "cnf(a,r,~X^!=b).",
        "cnf(a,r,a=b^=c).",
        "cnf(a,r,^$true).",
        "cnf(a,r,p(^$false)).",
        "cnf(a,r,p|^).",
        "cnf(a,r,p ^q).",
        "cnf(a,r,X^(a)).",
        "cnf(a,r,$false^(a)).",
        "cnf(a,r,$false^=a).",
        // symbols that are none
        "cnf(a,r,p(^1)).",
        "cnf(a,r,^1=a).",
        "cnf(a,r,^'P').",
        "cnf(a,r,p(^\"a\")).",
        "cnf(a,r,^_x).",
        // bytes that belong nowhere
        "cnf(a,r,p^&q).",
        "cnf(a,r,p)^;",
        "^\u{e9}",
        "^\0",
    ] {
        outside(text);
    }
}

#[test]
fn missing_text() {
    for text in [
        "cnf^",
        "cnf(a,r,p)^",
        "cnf(a,r,p) ^",
        "cnf(a,r,p\n^",
        "cnf(a,r,~^",
        "cnf(a,r,p(X^",
        "cnf(a,r,X^",
        "cnf(1^",
        "/*^",
        "/*/^",
        "/* *^",
        "cnf(a,r,p).\n/* **^",
        "cnf(a,r,p) % .^",
    ] {
        outside(text);
    }
}

#[test]
fn longer_tokens() {
    for text in [
        "cnf(a,r,p^=>q).",
        "cnf(a,r,^~|p).",
        "cnf(a,r,^~&p).",
        "cnf(a,r,a!=^>b).",
        "cnf(a,r,a=^=b).",
        "cnf(a,r,p^<=>q).",
        "cnf(^007.5,r,p).",
        "cnf(^1/2,r,p).",
        "cnf(^1e5,r,p).",
        "cnf(^1E+5,r,p).",
        "cnf(^1e-5,r,p).",
        "cnf(1^/0,r,p).",
        "cnf(1^.,r,p).",
        "cnf(1^e,r,p).",
        "cnf(1^e+,r,p).",
        "cnf(1^a,r,p).",
        "cnf(1^.a,r,p).",
        "cnf(^-1,r,p).",
        "cnf(1/*c*/^2,r,p).",
        "cnf(a,r,^$falsey).",
        "cnf(a,r,^$False).",
        "cnf(a,r,^$fal",
        "cnf(a,r,^$",
        "cnf(a,r,p)^/",
        "cnf(a,r,a^!",
        "cnf(a,r,a^! =b).",
    ] {
        outside(text);
    }
}

#[test]
fn symbols_that_clash() {
    clash("cnf(a,r,p|^p(X)).");
    clash("cnf(a,r,p(a)|p(b)).\ncnf(a,r,q(^b(a))).");
    clash("cnf(a,r,p|^p=X).");
    clash("cnf(a,r,p=X|^p).");
    clash("cnf(a,r,p(^p)).");
    clash("cnf(a,r,a=b).cnf(a,r,~^a).");
    // before the faults of its arguments, and before 17 at the same place
    clash("cnf(a,r,p|^p(Q,qQ)).");
    clash("cnf(a,r,p(X)|^p(X,X,X,X)).");
}

#[test]
fn what_goes_into_no_sheet() {
    beyond("cnf(a,r,^pQ).");
    beyond("cnf(a,r,p(^aB)).");
    beyond("cnf(a,r,p(abcdefghijkl,^abcdefghijklm)).");
    beyond("cnf(a,r,^p(X,X,X,X)).");
    beyond("cnf(a,r,p(^f(X,X,X,qQ))).");
    beyond("cnf(a,r,p(A,B,C)|p(D,E,F)|p(G,H,^I)).cnf(a,r,p).");
    let thirteen: Vec<String> = (1..13).map(|i| format!("p{i}")).collect();
    beyond(&format!("cnf(a,r,{}).cnf(a,r,^p13|X=p13).", thirteen.join("|")));
    let thirteen: Vec<String> = (1..13).map(|i| format!("X=f{i}")).collect();
    beyond(&format!("cnf(a,r,{}).cnf(a,r,p(X)|X=^f13).", thirteen.join("|")));
    beyond(&format!("{}  ^cnf(a,r,$false|p(p)).", "cnf(a,r,$false).\n".repeat(64)));
}

#[test]
fn limits_of_a_clause_at_its_full_stop() {
    let literals = |count: usize| vec!["p"; count].join("|");
    gives(
        &format!("cnf(a,r,{}).", literals(16)),
        &[],
        &["p/0"],
        &[&["+ p"; 16].join(" ")],
    );
    beyond(&format!("cnf(a,r,{})^.", literals(17)));
    beyond(&format!("cnf(a,r,{}\n)/**/^.", literals(17)));
    // 63 words and one more
    let nested = |depth: usize| format!("{}a{}", "f(".repeat(depth), ")".repeat(depth));
    beyond(&format!("cnf(a,r,{}={})^.", nested(30), nested(31)));
    // equal terms are one variable: ten of them and a letter are eleven variables, nine and a letter ten
    let flattened = |terms: usize| format!("cnf(a,r,p({0})|p({0})|q(X))^.", nested(terms - 1));
    beyond(&flattened(10));
    assert!(read(&flattened(9).replace('^', "")).is_ok());
}

#[test]
fn the_sheets_bytes() {
    // a line of 7 and 16 times 19 bytes for each clause
    let clause = format!("cnf(a,r,{}).\n", vec!["pppppppppppp(X,X)"; 16].join("|"));
    assert!(read(&clause.repeat(52)).is_ok());
    beyond(&(clause.repeat(53) + "% the end^"));
    outside(&(clause.repeat(53) + "/* no end^"));
    outside(&(clause.repeat(53) + "^x"));
}

#[test]
fn order_of_refusals() {
    // a 15 wins in its own statement, and yields to whole statements before it
    outside("cnf(a,r,p|p(X)|^1).");
    outside("cnf(a,r,pQ|^1).");
    outside("cnf(a,r,p|p(X))^");
    clash("cnf(a,r,p|^p(X)).cnf(a,r,1).");
    beyond("cnf(a,r,^pQ).\n/*");
    outside("cnf(a,r,p).cnf(a,r,p(X)|^&).");
    // else the earliest place
    clash("cnf(a,r,p|^p(X)|pQ).");
    beyond("cnf(a,r,p|^pQ|p(X)).");
    let sixty_four = "cnf(a,r,p).".repeat(64);
    beyond(&format!("{sixty_four}^cnf(a,r,p(X)|qQ)."));
    outside(&format!("{sixty_four}cnf(a,r,p(X)|qQ|^1)."));
    clash(&format!("{sixty_four}cnf(a,r,p).").replacen("p).", "p|^p(X)).", 1));
}

#[test]
fn short_outputs() {
    let text = b"cnf(a,axiom,a!=b).";
    let sheet = sheet_of(&["a/0", "b/0"], &[], &["- = a b"]);
    for operations in [nesskettle::OPERATIONS, reference::OPERATIONS] {
        let mut output = vec![7; sheet.len() - 1];
        let refusal = (operations.from_tptp)(text, &mut output).unwrap_err();
        assert_eq!(
            (refusal.reason, refusal.line, refusal.column),
            (Reason::OutputTooShort, 0, 0)
        );
        assert_eq!(refusal.needed, sheet.len() as u64);
        assert!(output.iter().all(|&b| b == 7));
    }
    outside("cnf(a,axiom,a!=b)^,");
}
