//! TPTP texts on the proved library: the reference's answer, and every lent byte.
//!
//! Texts are generated from fixed seeds: clauses of drafts, texts around each limit, and damaged ones. Each test counts what
//! came out, so that a generator that no longer reaches a result or a refusal fails.

use nesskettle::raw::{self, WriteAnswer};
use nesskettle_reference as reference;
use nesskettle_trials::buffers::{length_around, Lent};
use nesskettle_trials::draft::{Draft, BROAD, LIMITS, LONG_CLAUSES, SMALL};
use nesskettle_trials::expected;
use nesskettle_trials::places::offset;
use nesskettle_trials::random::Random;
use nesskettle_trials::tally::Tally;
use nesskettle_trials::tptp::clauses::{statements, ANY, SLIPPING};
use nesskettle_trials::tptp::damage::damaged;
use nesskettle_trials::tptp::{layout, limits};

/// Calls the library, holds its answer and the lent bytes against the reference's, and hands the answer back.
fn check(tally: &mut Tally, text: &[u8], output_length: usize) -> WriteAnswer {
    let mut should = vec![0; output_length];
    let written = reference::from_tptp(text, &mut should);
    let (expected, front) = expected::text(written, &should);
    let lent = text.to_vec();
    let mut output = Lent::bytes(output_length);
    let out = output.lend();
    // SAFETY: pointers and lengths are slices', and the output is lent to this call alone.
    let answer = unsafe { raw::nk_from_tptp(lent.as_ptr(), lent.len(), out.as_mut_ptr(), out.len()) };
    let call = || format!("output {output_length}\n{}", text.escape_ascii());
    assert_eq!(answer, expected, "{}", call());
    assert!(lent == text && output.holds(front), "lent bytes: {}", call());
    tally.add(outcome(text, &answer), 0);
    answer
}

/// The outcome; for a refusal that names a place its number and what stands there.
fn outcome(text: &[u8], answer: &WriteAnswer) -> &'static str {
    let at = place(text, answer);
    match (answer.reason, at.and_then(|at| text.get(at))) {
        (0, _) => "written",
        (11, _) => "11",
        (15, None) => "15 at the end",
        (15, _) => "15",
        (16, _) => "16",
        (17, None) => "17 at the end",
        (17, Some(b'.')) => "17 at a full stop",
        (17, Some(b'A'..=b'Z')) => "17 at a variable",
        (17, _) if at.is_some_and(|at| text[at..].starts_with(b"cnf")) => "17 at a statement",
        (17, _) => "17 at a symbol",
        (other, _) => panic!("{other} is no refusal of this call"),
    }
}

const OUTCOMES: [&str; 10] = [
    "written",
    "11",
    "15",
    "15 at the end",
    "16",
    "17 at a symbol",
    "17 at a variable",
    "17 at a full stop",
    "17 at a statement",
    "17 at the end",
];

/// Where the named place is in the text.
fn place(text: &[u8], answer: &WriteAnswer) -> Option<usize> {
    (answer.line > 0).then(|| offset(text, answer.line, answer.column))
}

/// The length of the sheet, or any where the text is refused.
fn needed(text: &[u8]) -> u64 {
    match reference::from_tptp(text, &mut []) {
        Err(refusal) if refusal.needed > 0 => refusal.needed,
        _ => 50,
    }
}

fn check_around(tally: &mut Tally, random: &mut Random, text: &[u8]) {
    let length = length_around(random, needed(text));
    check(tally, text, length);
}

#[test]
fn clauses_of_drafts_are_read_alike() {
    let mut tally = Tally::default();
    let mut random = Random::new(11);
    for _ in 0..80_000 {
        let style = *random.pick(&[SMALL, SMALL, BROAD, LONG_CLAUSES]);
        let draft = Draft::random(&mut random, style);
        let statements = statements(&mut random, &draft, SLIPPING);
        let text = layout::any(&mut random, &statements);
        check_around(&mut tally, &mut random, &text);
    }
    for _ in 0..2_000 {
        let draft = Draft::random(&mut random, LIMITS);
        let statements = statements(&mut random, &draft, ANY);
        let text = layout::any(&mut random, &statements);
        check_around(&mut tally, &mut random, &text);
    }
    let outcomes = [
        "written",
        "11",
        "16",
        "17 at a symbol",
        "17 at a variable",
        "17 at a full stop",
    ];
    tally.covers(300, &outcomes);
}

#[test]
fn texts_around_limits_are_read_alike() {
    let mut tally = Tally::default();
    let mut random = Random::new(12);
    for _ in 0..80_000 {
        let statements = limits::around_limits(&mut random);
        let text = if random.once_in(4) {
            damaged(&mut random, &statements)
        } else {
            layout::any(&mut random, &statements)
        };
        check_around(&mut tally, &mut random, &text);
    }
    for _ in 0..2_000 {
        let bytes = random.between(16_380, 16_388);
        let statements = limits::sheet_bytes(&mut random, bytes);
        let mut text = layout::any(&mut random, &statements);
        if random.once_in(4) {
            text.extend(b"/* no end");
        }
        check_around(&mut tally, &mut random, &text);
    }
    tally.covers(300, &OUTCOMES);
}

#[test]
fn damaged_texts_are_read_alike() {
    let mut tally = Tally::default();
    let mut random = Random::new(13);
    for _ in 0..100_000 {
        let draft = Draft::random(&mut random, SMALL);
        let style = if random.once_in(2) { ANY } else { SLIPPING };
        let statements = statements(&mut random, &draft, style);
        let text = damaged(&mut random, &statements);
        check_around(&mut tally, &mut random, &text);
    }
    tally.covers(300, &["written", "11", "15", "15 at the end", "16", "17 at a symbol"]);
}

#[test]
fn every_short_text_is_read_alike() {
    let mut tally = Tally::default();
    let whole = b"%\ncnf(a,r,p(X)|~q|$false/**/|f(a)!=X).\ncnf(1,r,(a=b)).";
    for length in 0..=whole.len() {
        check(&mut tally, &whole[..length], 100);
        for byte in 0..=255 {
            let mut text = whole[..length].to_vec();
            text.push(byte);
            check(&mut tally, &text, 100);
            text.extend_from_slice(&whole[(length + 1).min(whole.len())..]);
            check(&mut tally, &text, 100);
            text.remove(length);
            text.splice(length..length, [byte, byte]);
            check(&mut tally, &text, 100);
        }
    }
    tally.covers(20, &["written", "11", "15", "15 at the end", "16", "17 at a symbol"]);
}

#[test]
fn a_clean_draft_gives_its_own_sheet() {
    let mut random = Random::new(14);
    let mut taken = 0;
    for _ in 0..20_000 {
        let style = *random.pick(&[SMALL, BROAD]);
        let draft = Draft::random(&mut random, style);
        let statements = statements(&mut random, &draft, ANY);
        let text = layout::any(&mut random, &statements);
        let sheet = draft.in_order_of_appearance().sheet();
        let mut output = vec![0; sheet.len() + 10];
        match nesskettle::from_tptp(&text, &mut output) {
            Ok(length) => {
                assert_eq!(output[..length], sheet, "{}", text.escape_ascii());
                assert!(nesskettle::read(&sheet).is_ok());
                taken += 1;
            }
            // the draft's own sheet is over the same limit
            Err(_) => assert!(nesskettle::read(&sheet).is_err(), "{}", text.escape_ascii()),
        }
    }
    assert!(taken > 15_000, "only {taken}");
}

#[test]
fn what_is_refused_stays_refused_with_more_text() {
    let mut tally = Tally::default();
    let mut random = Random::new(15);
    for _ in 0..30_000 {
        let statements = if random.once_in(2) {
            limits::around_limits(&mut random)
        } else {
            let draft = Draft::random(&mut random, SMALL);
            statements(&mut random, &draft, SLIPPING)
        };
        let text = damaged(&mut random, &statements);
        let answer = check(&mut tally, &text, 0);
        let refused_within = place(&text, &answer).is_some_and(|at| at < text.len());
        if refused_within {
            let other = damaged(&mut random, &statements);
            let longer = [&text[..], b" ", &other].concat();
            assert_eq!(check(&mut tally, &longer, 0), answer, "{}", longer.escape_ascii());
        }
    }
    tally.covers(
        300,
        &["15", "16", "17 at a symbol", "17 at a variable", "17 at a full stop"],
    );
}

#[test]
fn deep_terms_are_read_alike() {
    let mut tally = Tally::default();
    let nested = |depth: usize, inside: &str| {
        let term = format!("{}{inside}{}", "f(".repeat(depth), ")".repeat(depth));
        format!("cnf(a,axiom,p({term})).\ncnf(b,axiom,q(X)).\n")
    };
    for depth in [1, 8, 9, 10, 60, 61, 62, 63, 1_000, 20_000] {
        for inside in ["X", "a", "f", "p", "g(X,X,X,X)", "f(X", "X)", "X,X", "q(X)", "1"] {
            check(&mut tally, nested(depth, inside).as_bytes(), 300);
        }
    }
    let opened = format!("cnf(a,axiom,{}", "p(".repeat(20_000));
    check(&mut tally, opened.as_bytes(), 300);
    tally.covers(
        1,
        &[
            "written",
            "15",
            "15 at the end",
            "16",
            "17 at a full stop",
            "17 at a symbol",
        ],
    );
}
