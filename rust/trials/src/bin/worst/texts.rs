//! From TPTP and From solver, by the length of the text: the shape with the least bytes a second.

use crate::slowest::{fastest, line, Slowest};
use nesskettle_trials::draft::Draft;
use nesskettle_trials::random::Random;
use nesskettle_trials::solver::stating;
use nesskettle_trials::timing::shown;

/// How long the texts are, about.
const LENGTH: usize = 100_000;

/// Tries the texts, and prints the slowest by the byte.
fn by_length(call: &str, texts: Vec<(String, Vec<u8>)>, mut work: impl FnMut(&[u8])) {
    let mut slowest = Slowest::new();
    let tried = texts.len();
    for (name, text) in texts {
        let seconds = fastest(|| work(&text)) / text.len() as f64;
        slowest.told(name, text, seconds);
    }
    let bytes = slowest.input().len();
    let time = shown(slowest.seconds() * bytes as f64);
    let rate = 1e-6 / slowest.seconds();
    line(
        call,
        &format!("{bytes} bytes, {rate:.2} MB/s: {}", slowest.name()),
        &time,
        tried,
    );
}

pub fn from_tptp() {
    let repeated = |part: &str| part.repeat(LENGTH / part.len());
    let statement = |clause: String| format!("cnf(a, axiom, {clause}).\n");
    let nested = |open: &str, close: &str| {
        let depth = LENGTH / (open.len() + close.len());
        statement(format!("p({}X{})", open.repeat(depth), close.repeat(depth)))
    };
    let mut texts = vec![
        ("terms nested in first arguments".to_string(), nested("f(", ",X)")),
        ("terms nested in last arguments".to_string(), nested("f(X,", ")")),
        (
            "terms nested, unclosed".to_string(),
            format!("cnf(a, axiom, p({}", repeated("f(")),
        ),
        (
            "64 statements of nested terms".to_string(),
            statement(nested_once(LENGTH / 64 / 3)).repeat(64),
        ),
    ];
    for part in ["X,", "f(X),", "f(X,X,X),", "aaaaaaaaaaaa,"] {
        let name = format!("one symbol with arguments `{part}`");
        texts.push((name, statement(format!("p({}X)", repeated(part)))));
    }
    for part in ["$false|", "p|", "~p(X)|", "X=X|", "X!=f(X)|", "p(f(X),g(X),h(X))|"] {
        texts.push((format!("literals `{part}`"), statement(format!("{}p", repeated(part)))));
    }
    for part in [" ", "%\n", "/**/", "% a comment to the line's end\n"] {
        texts.push((format!("blanks `{}`", part.trim_end()), repeated(part)));
    }
    texts.push(("one name".to_string(), statement(repeated("a"))));
    let texts = texts
        .into_iter()
        .map(|(name, text)| (name, text.into_bytes()))
        .collect();
    let mut output = vec![0; 16_384];
    by_length("From TPTP", texts, |text| {
        let _ = nesskettle::from_tptp(text, &mut output);
    });
}

fn nested_once(depth: usize) -> String {
    format!("p({}X{})", "f(".repeat(depth), ")".repeat(depth))
}

pub fn from_solver() {
    let draft = Draft::most_cells();
    let sheet = draft.sheet();
    let setting = draft.setting(&mut Random::new(22), 8);
    let number = |(i, yes): (usize, &u8)| format!("{}{}", if *yes == 1 { "" } else { "-" }, i + 1);
    let numbers: Vec<String> = setting.iter().enumerate().map(number).collect();
    let mut backwards = numbers.clone();
    backwards.reverse();
    let answer = |lines: String| format!("s SATISFIABLE\n{lines}");
    let texts = [
        (
            "the largest setting on one line",
            answer(format!("v {} 0\n", numbers.join(" "))),
        ),
        ("the same, backwards", answer(format!("v {} 0\n", backwards.join(" ")))),
        (
            "a line for each number",
            answer(format!("v {}\nv 0\n", numbers.join("\nv "))),
        ),
        ("short comments", "c\n".repeat(LENGTH / 2) + "s UNSATISFIABLE\n"),
        ("one comment", format!("c{}\ns UNSATISFIABLE\n", " ".repeat(LENGTH))),
        ("one number", answer(format!("v {} 0\n", "1".repeat(LENGTH)))),
        ("the same number", answer(format!("v {}0\n", "1 ".repeat(LENGTH / 2)))),
    ];
    let mut texts: Vec<_> = texts.map(|(name, text)| (name.to_string(), text.into_bytes())).into();
    texts.push((
        "the same, in any order".to_string(),
        stating(&mut Random::new(23), &setting),
    ));
    let mut output = vec![0; 30_000];
    by_length("From solver", texts, |text| {
        let _ = nesskettle::from_solver(&sheet, 8, text, &mut output);
    });
}
