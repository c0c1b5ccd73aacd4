//! Damaged inputs: each refusal several times, several faults at once, bytes at the edges of what is allowed.

use crate::calls::{
    answered, file, finding, finding_plain, importing, judging, reading, reading_back, setting_of, writing, Call,
};
use crate::examples::{full, two_constants};
use crate::{merging, renumbering};
use nesskettle_reference::sheet_of;

/// The edges of the bytes that layouts, names and words allow.
const EDGES: [u8; 29] = [
    0, 1, 9, 10, 11, 13, 31, 32, 33, 43, 45, 46, 47, 48, 51, 52, 57, 58, 61, 64, 65, 72, 73, 95, 96, 97, 122, 128, 255,
];

pub fn of(operation: &str) -> Vec<Call> {
    let good = b"case=1\nsize=2\na=1\nb=2\n";
    match operation {
        "read" => sheets().iter().chain(&longer()).map(reading).collect(),
        "judge" | "explain" => judged(),
        // eleven bytes are a setting of most of the cases
        "setting" => judged()
            .into_iter()
            .map(|c| setting_of(c.sheet, c.beside, 11))
            .collect(),
        "write" => one_of_each().into_iter().map(|s| writing(s, 0, 10)).collect(),
        "read_back" => one_of_each()
            .into_iter()
            .map(|s| reading_back(s, 9, good, 10))
            .collect(),
        "from_solver" => answers(),
        "from_tptp" => clauses().iter().map(|text| importing(text, 300)).collect(),
        "find" => one_of_each().into_iter().map(|s| finding(s, 0, 9, 3, 10)).collect(),
        "find_plain" => one_of_each().into_iter().map(|s| finding_plain(s, 0, 9, 10)).collect(),
        "merge" => merging::damaged(),
        "renumber" => renumbering::damaged_renumbers(),
        "least_form" => renumbering::damaged_least_forms(),
        other => panic!("no operation {other}"),
    }
}

/// The good sheet that is damaged: each line has a use.
fn whole() -> String {
    let text = sheet_of(&["a/0", "f/1"], &["p/1", "q/2"], &["+ p f a - q A B", "+ = f A a"]);
    String::from_utf8(text).expect("a sheet is text")
}

fn damage(old: &str, new: &str) -> Vec<u8> {
    assert_eq!(whole().matches(old).count(), 1, "{old}");
    whole().replace(old, new).into_bytes()
}

/// Refusals 1 to 7 and 12.
pub fn judged() -> Vec<Call> {
    let refused = one_of_each().into_iter().map(|s| judging(s, "case=2\n"));
    refused.chain(cases()).collect()
}

/// Refusals 1 to 7.
pub fn one_of_each() -> Vec<Vec<u8>> {
    vec![
        full(16_385),
        damage("preds=2", "preds=02"),
        damage("fun=f/1", "fun=f/4"),
        damage("fun=f/1", "fun=a/1"),
        damage("= f A a", "= f A b"),
        damage("= f A a", "= f A"),
        damage("+ = f A a", &["+ p A"; 17].join(" ")),
    ]
}

/// Sheets that are short.
fn sheets() -> Vec<Vec<u8>> {
    let changes = [
        // 2: keys, counts, line ends
        ("sheet=1", "sheet=2"),
        ("sheet=1", "sheet=1 "),
        ("sheet=1", "Sheet=1"),
        ("sheet=1\n", ""),
        ("funs=2", "funs=00"),
        ("funs=2", "funs=02"),
        ("funs=2", "funs=+2"),
        ("funs=2", "funs=100"),
        ("funs=2", "funs="),
        ("funs=2", "funs=2\r"),
        ("funs=2", "funs=1"),
        ("funs=2", "funs=3"),
        ("funs=2", "funs=12"),
        ("fun=a/0\n", "fun=a/0"),
        ("fun=a/0", "fun=a"),
        ("fun=a/0", "fun=a/"),
        ("fun=a/0", "fun=a/12"),
        ("fun=a/0", "fun=a/0 "),
        ("fun=a/0", "fun="),
        ("fun=a/0", "fun=0"),
        ("fun=a/0", "fun =a/0"),
        ("preds=2\n", "preds=2\n\n"),
        ("preds=2", "preds=1"),
        ("clauses=2", "clauses=1"),
        ("clauses=2", "clauses=3"),
        ("clauses=2", "clauses=64"),
        ("clause=+ =", "clause =+ ="),
        // 3
        ("funs=2", "funs=13"),
        ("funs=2", "funs=99"),
        ("preds=2", "preds=13"),
        ("clauses=2", "clauses=65"),
        ("pred=q/2", "pred=q/4"),
        ("fun=a/0", "fun=a/9"),
        // 4
        ("fun=a/0", "fun=/0"),
        ("fun=a/0", "fun=abcdefghijklm/0"),
        ("fun=a/0", "fun=A/0"),
        ("fun=a/0", "fun=_a/0"),
        ("fun=a/0", "fun=1a/0"),
        ("fun=a/0", "fun=a b/0"),
        ("fun=a/0", "fun=a/1/2"),
        ("fun=f/1", "fun=a/0"),
        ("pred=p/1", "pred=a/1"),
        ("pred=q/2", "pred=p/2"),
        ("fun=a/0\nfun=f/1", "fun=a/0fun=f/1\nfun=f/1"),
        // 5
        ("+ = f A a", " "),
        ("+ = f A a", " + = f A a"),
        ("+ = f A a", "+ = f A a "),
        ("+ = f A a", "+  = f A a"),
        ("+ = f A a", "+ = f I a"),
        ("+ = f A a", "+ = f AB a"),
        ("+ = f A a", "+ = f\tA a"),
        ("+ = f A a", "+ = f A a\r"),
        ("+ = f A a", "+ = f A aa"),
        ("+ p f a - q A B\n", "+ p f a - q A B"),
        // 6
        ("+ = f A a", "= f A a"),
        ("+ = f A a", "+"),
        ("+ = f A a", "+ ="),
        ("+ = f A a", "+ = f A a a"),
        ("+ = f A a", "+ = p A a"),
        ("+ = f A a", "+ f A"),
        ("+ = f A a", "+ A"),
        ("+ = f A a", "+ + = f A a"),
        ("+ = f A a", "+ = f A a -"),
        ("+ = f A a", "A"),
        // several faults on one line: the lowest number
        ("fun=a/0", "fun=A/4"),
        ("fun=a/0", "fun=ABCDEFGHIJKLM/x"),
        ("fun=f/1", "fun=a/4"),
        ("+ = f A a", "+ + x"),
        ("+ = f A a", "+  + ="),
        // and on several lines: the first line
        ("fun=f/1\npreds=2", "fun=F/1\npreds=x"),
        ("- q A B\nclause=+ = f A a\n", "- q A x\nclause=+ = f A a"),
        ("- q A B\nclause=+ = f A a\n", "- q A\nclause=+ = f A x\n"),
        ("clauses=2\nclause=+ p f a", "clauses=70\nclause=x"),
    ];
    let mut sheets: Vec<Vec<u8>> = changes.iter().map(|(old, new)| damage(old, new)).collect();
    let text = whole();
    // the sheet's beginnings
    sheets.extend((0..text.len()).map(|length| text[..length].into()));
    sheets.push(b"\n".to_vec());
    sheets.push((text.clone() + "\n").into_bytes());
    sheets.push((text.clone() + "clause=\n").into_bytes());
    let places = [
        ("fun=f/1", "fun=f", "/1"),
        ("fun=a/0", "fun=a/", ""),
        ("+ = f A a", "+ = f A ", ""),
    ];
    for byte in EDGES {
        for (old, before, after) in places {
            let (first, rest) = text.split_once(old).expect("it is there");
            let (first, rest) = (first.to_string() + before, after.to_string() + rest);
            sheets.push([first.as_bytes(), &[byte], rest.as_bytes()].concat());
        }
    }
    sheets
}

/// Sheets that are long, or hold every byte.
fn longer() -> Vec<Vec<u8>> {
    let every: Vec<u8> = (0..=255).collect();
    let words = |word: &str, count: usize| damage("+ = f A a", &vec![word; count].join(" "));
    let with_every = |before: &str| {
        let text = whole();
        let (first, rest) = text.split_at(text.find(before).expect("it is there") + before.len());
        [first.as_bytes(), &every, rest.as_bytes()].concat()
    };
    vec![
        full(16_383),
        full(16_385),
        vec![b'a'; 16_384],
        vec![b'a'; 16_385],
        // 7: too many literals, too many words, both in either order, too many variables
        words("+ p A", 21),
        words("+ q A f A", 13),
        words("+ p A", 22),
        words("+ q A f A", 17),
        damage("+ = f A a", &format!("+ p {}a", "f ".repeat(10))),
        words("+ p", 2_500),
        words("+ p A", 2_500),
        words("+ p I", 2_500),
        words("x", 5_000),
        damage("fun=f/1", &format!("fun={}/1", "f".repeat(9_000))),
        damage("fun=f/1", &format!("fun={}", "f".repeat(9_000))),
        damage("+ = f A a", &format!("+ = f A {}", "a".repeat(9_000))),
        damage("clauses=2", &format!("clauses={}", "2".repeat(9_000))),
        every.clone(),
        with_every("fun=f"),
        with_every("clause=+ = f A "),
        with_every("preds="),
    ]
}

/// Damaged cases of a good sheet.
fn cases() -> Vec<Call> {
    let problem = sheet_of(&["a/0", "f/1"], &["p/0", "q/2"], &["+ p", "+ q f a A"]);
    let whole = "case=1\nsize=2\na=1\nf=2 1\np=1\nq=0 1 1 0\n";
    let changes = [
        ("case=1", "case=1"),
        ("case=1", "case=2"),
        ("case=1\n", "case=1"),
        ("case=1\n", ""),
        ("case=1\n", "case=1\n\n"),
        ("size=2", "size=0"),
        ("size=2", "size=9"),
        ("size=2", "size=02"),
        ("size=2", "size="),
        ("size=2", "size=1"),
        ("size=2", "size=3"),
        ("size=2", "size=2\r"),
        ("a=1", "a=0"),
        ("a=1", "a=2"),
        ("a=1", "a=3"),
        ("a=1", "a=1 1"),
        ("a=1", "b=1"),
        ("a=1", "a="),
        ("a=1\n", ""),
        ("f=2 1", "f=2 1 "),
        ("f=2 1", "f=2  1"),
        ("f=2 1", "f= 2 1"),
        ("f=2 1", "f=21"),
        ("f=2 1", "f=2\t1"),
        ("f=2 1", "f=2"),
        ("f=2 1", "f=2 1 1"),
        ("f=2 1", "f=2 x"),
        ("p=1", "p=2"),
        ("p=1", "p=0"),
        ("p=1\n", "p=1\nq=1\n"),
        ("q=0 1 1 0", "q=0 1 1"),
        ("q=0 1 1 0", "q=0 1 1 2"),
        ("q=0 1 1 0", "q=0 1 1 0\n"),
        ("q=0 1 1 0", "q=0 1 1 0\nx"),
        ("q=0 1 1 0\n", "q=0 1 1 0"),
        ("q=0 1 1 0\n", ""),
        ("q=0 1 1 0", "q=1 1 1 1"),
        ("a=1\nf=2 1", "a=x\nf=x"),
    ];
    let damaged = changes
        .iter()
        .map(|(old, new)| whole.replacen(old, new, 1).into_bytes());
    let beginnings = (0..whole.len()).map(|length| whole[..length].into());
    let edges = EDGES
        .iter()
        .map(|byte| [b"case=1\nsize=2\na=1\nf=2 ", &[*byte][..], b"\np=1\nq=0 1 1 0\n"].concat());
    let cases = damaged.chain(beginnings).chain(edges);
    let mut calls: Vec<Call> = cases.map(|case| judging(&problem, case)).collect();
    calls.push(judging(two_constants(), (0..=255).collect::<Vec<u8>>()));
    calls.push(judging(two_constants(), ""));
    calls.push(judging(two_constants(), vec![b'c'; 20_000]));
    calls.push(judging(
        file("group.sheet"),
        [file("group-6.case"), b"m=1\n".to_vec()].concat(),
    ));
    calls
}

/// TPTP clauses that are refused: 15, 16 and 17, and which of several comes first.
fn clauses() -> Vec<String> {
    let mut texts: Vec<String> = [
        // 15: a token that cannot stand there
        "fof(a,axiom,p).",
        "cnf(A,axiom,p).",
        "cnf(a,Axiom,p).",
        "cnf(a,axiom,p.",
        "cnf(a,axiom,p)",
        "cnf(a,axiom,p):.",
        "cnf(a,axiom,p,q).",
        "cnf(a,axiom,X).",
        "cnf(a,axiom,p|).",
        "cnf(a,axiom,~~p).",
        "cnf(a,axiom,((p))).",
        "cnf(a,axiom,(p)|q).",
        "cnf(a,axiom,p()).",
        "cnf(a,axiom,p(X,)).",
        "cnf(a,axiom,X(a)).",
        "cnf(a,axiom,a=b=c).",
        "cnf(a,axiom,a!==b).",
        "cnf(a,axiom,~X!=a).",
        "cnf(a,axiom,~$false).",
        "cnf(a,axiom,$true).",
        "cnf(a,axiom,'p').",
        "cnf(a,axiom,p&q).",
        "include('a.p').",
        "cnf(a,axiom,p).\ncnf(b,axiom,p).\n.",
        // missing text
        "cnf",
        "cnf(a,axiom,p).\n/* no end *",
        "cnf(a,axiom,p(X",
        // 16: another arity, the other kind
        "cnf(a,axiom,p(X)).\ncnf(b,axiom,q|p).",
        "cnf(a,axiom,p(p)).",
        "cnf(a,axiom,f(X)=X|q(f)).",
        // 17: names, arity, a ninth variable
        "cnf(a,axiom,p_Q).",
        "cnf(a,axiom,abcdefghijklm).",
        "cnf(a,axiom,p(X,X,X,X)).",
        "cnf(a,axiom,p(A,B,C)|p(D,E,F)|p(G,H,I)).",
        // a statement's 15 before its own 16 and 17, after those of earlier ones
        "cnf(a,axiom,p(X)).\ncnf(b,axiom,p|~~q).",
        "cnf(a,axiom,p(X)).\ncnf(b,axiom,p).\ncnf(c,axiom,~~q).",
        "cnf(a,axiom,p(X)|p).\ncnf(b,axiom,p_Q).",
        "cnf(a,axiom,p_Q(X)|p_Q).",
    ]
    .map(String::from)
    .to_vec();
    let repeated = |literal: &str, count: usize| format!("cnf(a,axiom,{}).", vec![literal; count].join("|"));
    texts.push(repeated("p", 17));
    texts.push(repeated("p(X,X,X)", 13));
    texts.push(format!("cnf(a,axiom,p({}X{})).", "f(".repeat(10), ")".repeat(10)));
    texts.push((0..13).map(|i| format!("cnf(a,axiom,p{i}).\n")).collect());
    texts.push((0..13).map(|i| format!("cnf(a,axiom,X=f{i}).\n")).collect());
    texts.push("cnf(a,axiom,p).\n".repeat(65));
    texts
}

/// Refusals 1 to 8 and 18.
fn answers() -> Vec<Call> {
    let two = two_constants();
    let whole = "s SATISFIABLE\nv 1 -2\nc\nv -3 4 0\n";
    let changes = [
        // a variable missing, doubled, above the last one
        ("1 -2", "-2"),
        ("1 -2", "1 -2 -2"),
        ("1 -2", "1 -2 2"),
        ("1 -2", "1 1"),
        ("-3 4", "-3 5"),
        ("-3 4", "-3 4 5"),
        ("-3 4", "-3 65540"),
        ("-3 4", "-3 4294967300"),
        ("-3 4", "-3 18446744073709551620"),
        ("1 -2", "18446744073709551617 -2"),
        // numbers
        ("4 0", "4 -0"),
        ("4 0", "4 +0"),
        ("4 0", "4 00"),
        ("1 -2", "+1 -2"),
        ("1 -2", "01 -2"),
        ("1 -2", "1 -02"),
        ("1 -2", "1 --2"),
        ("1 -2", "1 - 2"),
        ("1 -2", "1 -2x"),
        ("1 -2", "1 0 -2"),
        ("1 -2", "0 1 -2"),
        ("4 0", "4"),
        ("4 0", "4 0 0"),
        ("4 0\n", "4 0\nv 0\n"),
        // spaces, line feeds, other lines
        ("1 -2", "1  -2"),
        ("1 -2", " 1 -2"),
        ("1 -2", "1 -2 "),
        ("1 -2", "1\t-2"),
        ("1 -2", "1 -2\r"),
        ("v 1", "v1"),
        ("v 1", " v 1"),
        ("v 1", "V 1"),
        ("v 1 -2\n", "v\nv 1 -2\n"),
        ("v 1 -2\n", "v \nv 1 -2\n"),
        ("v 1 -2\n", "v 1 -2"),
        ("c\n", "\n"),
        ("c\n", "C\n"),
        ("c\n", " c\n"),
        ("c\n", "c"),
        ("4 0\n", "4 0"),
        ("4 0\n", "4 0\nc"),
        ("4 0\n", "4 0\n\n"),
        // the line of the outcome
        ("s SATISFIABLE\n", ""),
        ("s SATISFIABLE\n", "s SATISFIABLE\ns SATISFIABLE\n"),
        ("s SATISFIABLE\n", "v 1\ns SATISFIABLE\n"),
        ("s SATISFIABLE", "s SATISFIABLE "),
        ("s SATISFIABLE", "s  SATISFIABLE"),
        ("s SATISFIABLE", "s satisfiable"),
        ("s SATISFIABLE", "SATISFIABLE"),
        ("s SATISFIABLE", "s UNKNOWN"),
        ("s SATISFIABLE", "s UNSATISFIABLE"),
        ("4 0\n", "4 0\ns UNSATISFIABLE\n"),
        ("s SATISFIABLE\nv 1 -2\nc\nv -3 4 0\n", "s SATISFIABLE\n"),
        ("s SATISFIABLE\nv 1 -2\nc\nv -3 4 0\n", "s UNSATISFIABLE\nv 0\n"),
        (
            "s SATISFIABLE\nv 1 -2\nc\nv -3 4 0\n",
            "s UNSATISFIABLE\ns UNSATISFIABLE\n",
        ),
        ("s SATISFIABLE\nv 1 -2\nc\nv -3 4 0\n", "s UNSATISFIABLE"),
        ("s SATISFIABLE\nv 1 -2\nc\nv -3 4 0\n", "SAT\n1 -2 -3 4 0\n"),
        ("-3 4", &format!("-3 {}4", "0".repeat(300))),
        ("-3 4", &format!("-3 4{}", "0".repeat(300))),
    ];
    let refused = one_of_each().into_iter().map(|sheet| answered(sheet, 9, "x", 10));
    let mut calls: Vec<Call> = refused.collect();
    calls.extend([0, 9, 258, u64::MAX].map(|size| answered(&two, size, "x", 10)));
    calls.extend(changes.iter().map(|(old, new)| {
        assert_eq!(whole.matches(old).count(), 1, "{old}");
        answered(&two, 2, whole.replace(old, new), 22)
    }));
    calls.extend((0..whole.len()).map(|length| answered(&two, 2, &whole[..length], 22)));
    calls.extend(EDGES.map(|byte| {
        answered(
            &two,
            2,
            [b"s SATISFIABLE\nv 1 -2 -3 4", &[byte][..], b"0\n"].concat(),
            22,
        )
    }));
    calls.extend([1, 3].map(|size| answered(&two, size, whole, 22)));
    calls
}
