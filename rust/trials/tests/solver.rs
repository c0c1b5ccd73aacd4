//! Solvers' answers on the proved library: the reference's answer and every lent byte, and what an answer means.
//!
//! Texts are generated from fixed seeds: settings in every layout, claims of none, near misses, and damaged texts. Each
//! test counts what came out, so that a generator that no longer reaches a result or a refusal fails.

use nesskettle::raw::{self, WriteAnswer};
use nesskettle_reference::{self as reference, sheet_of, Operations, Reason, Refusal, SolverAnswer, Terms};
use nesskettle_trials::buffers::{length_around, Lent};
use nesskettle_trials::damage::{damaged, damaged_bytes};
use nesskettle_trials::draft::{Draft, BROAD, SMALL};
use nesskettle_trials::models::small_model;
use nesskettle_trials::options::told_no;
use nesskettle_trials::random::Random;
use nesskettle_trials::solver::{claiming_none, near_claiming_none, near_stating, stating, FAULTS};
use nesskettle_trials::tally::Tally;

const BOTH: [Operations; 2] = [nesskettle::OPERATIONS, reference::OPERATIONS];

/// Bytes that mean something in an answer, and some that never do.
const BYTES: &[u8] = b"\n\n  --+0011239cvs\r\tSU\0\xff";

/// Calls the library, and holds its answer and the lent bytes against the reference's.
fn check(tally: &mut Tally, sheet: &[u8], size: u64, text: &[u8], output_length: usize) {
    let mut should = vec![0; output_length];
    let (expected, front) = expected(reference::from_solver(sheet, size, text, &mut should));
    let (lent, lent_text) = (sheet.to_vec(), text.to_vec());
    let mut output = Lent::bytes(output_length);
    let out = output.lend();
    // SAFETY: pointers and lengths are slices', and the output is lent to this call alone.
    let answer = unsafe {
        raw::nk_from_solver(
            lent.as_ptr(),
            lent.len(),
            size,
            lent_text.as_ptr(),
            lent_text.len(),
            out.as_mut_ptr(),
            out.len(),
        )
    };
    let call = || {
        let (sheet, text) = (sheet.escape_ascii(), text.escape_ascii());
        format!("size {size}, output {output_length}\n{sheet}\n{text}")
    };
    assert_eq!(answer, expected, "{}", call());
    assert!(
        lent == sheet && lent_text == text && output.holds(&should[..front]),
        "lent bytes: {}",
        call()
    );
    tally.add(if answer.outcome == 1 { "case" } else { "claimed none" }, answer.reason);
}

/// The answer for C, and how many bytes are written.
fn expected(answer: Result<SolverAnswer, Refusal>) -> (WriteAnswer, usize) {
    let nothing = WriteAnswer {
        outcome: 0,
        reason: 0,
        line: 0,
        column: 0,
        length: 0,
    };
    match answer {
        Err(refusal) => (
            WriteAnswer {
                reason: refusal.reason.number(),
                line: refusal.line,
                column: refusal.column,
                length: refusal.needed,
                ..nothing
            },
            0,
        ),
        Ok(SolverAnswer::ClaimedNone) => (WriteAnswer { outcome: 2, ..nothing }, 0),
        Ok(SolverAnswer::Case { length }) => (
            WriteAnswer {
                outcome: 1,
                length: length as u64,
                ..nothing
            },
            length,
        ),
    }
}

/// What the call answers with this output, which is lent full of sevens, and the output afterwards.
fn answered(
    operations: &Operations,
    (sheet, size): (&[u8], u64),
    text: &[u8],
    output_length: usize,
) -> (Result<SolverAnswer, Refusal>, Vec<u8>) {
    let mut output = vec![7; output_length];
    let answer = (operations.from_solver)(sheet, size, text, &mut output);
    (answer, output)
}

/// A draft, a size, and a setting: often that of a model, else one of any case, or one in which some cell may have no result
/// or several.
fn draft_and_setting(random: &mut Random) -> (Draft, u64, Vec<u8>) {
    let style = *random.pick(&[SMALL, SMALL, BROAD]);
    let draft = Draft::random(random, style);
    let sheet = draft.sheet();
    if random.once_in(2) {
        if let Some((size, setting)) = model_setting(&sheet) {
            return (draft, size, setting);
        }
    }
    let size = random.between(1, 8).min(random.between(1, 4));
    let mut setting = draft.setting(random, size);
    if !setting.is_empty() && random.once_in(4) {
        let at = random.below(setting.len());
        setting[at] ^= 1;
    }
    (draft, size as u64, setting)
}

/// The size of a model of the sheet, and its setting.
fn model_setting(sheet: &[u8]) -> Option<(u64, Vec<u8>)> {
    let case = small_model(sheet)?;
    let mut setting = vec![0; 60_000];
    let length = reference::setting(sheet, &case, &mut setting).expect("it is a case");
    setting.truncate(length);
    Some((u64::from(case[12] - b'0'), setting))
}

/// A sheet with a model of one to three elements, the size, and the model's setting.
fn sheet_and_model(random: &mut Random) -> (Vec<u8>, u64, Vec<u8>) {
    let style = *random.pick(&[SMALL, SMALL, BROAD]);
    let sheet = Draft::random(random, style).sheet();
    match model_setting(&sheet) {
        Some((size, setting)) => (sheet, size, setting),
        None => sheet_and_model(random),
    }
}

#[test]
fn answers_are_read_alike() {
    let mut tally = Tally::default();
    let mut random = Random::new(61);
    for _ in 0..60_000 {
        let (draft, mut size, setting) = draft_and_setting(&mut random);
        let mut sheet = draft.sheet();
        if random.once_in(20) {
            sheet = damaged(&mut random, &sheet);
        }
        if random.once_in(25) {
            size = *random.pick(&[0, 9, 258, (1 << 32) + 2, u64::MAX, size + 1, size - 1]);
        }
        let text = match random.below(10) {
            0 => claiming_none(&mut random),
            1 => near_claiming_none(&mut random),
            2 => near_stating(&mut random, &setting).1,
            3 | 4 => {
                let text = stating(&mut random, &setting);
                damaged_bytes(&mut random, &text, BYTES)
            }
            _ => stating(&mut random, &setting),
        };
        let needed = reference::needed(&sheet, size, told_no(Terms::AsWritten)).map_or(20, |(_, output)| output);
        let length = length_around(&mut random, needed);
        check(&mut tally, &sheet, size, &text, length);
    }
    tally.covers(50, &["case", "claimed none", "2", "5", "8", "11", "14", "18", "19"]);
}

/// Every text that begins as an answer does, with any byte after that and perhaps with the rest of it.
#[test]
fn every_short_answer_is_read_alike() {
    let mut tally = Tally::default();
    let sheet = sheet_of(&["a/0"], &["p/1"], &["+ p a"]);
    let wholes: [&[u8]; 3] = [
        b"c x\ns SATISFIABLE\nv -4 1\nc\nv -2 3 0\n",
        b"s SATISFIABLE\nv 1 -2 3 4 0\n",
        b"s UNSATISFIABLE\nc\n",
    ];
    for whole in wholes {
        for length in 0..=whole.len() {
            check(&mut tally, &sheet, 2, &whole[..length], 30);
            for byte in 0..=255 {
                let mut text = whole[..length].to_vec();
                text.push(byte);
                check(&mut tally, &sheet, 2, &text, 30);
                let inserted = [&text, &whole[length..]].concat();
                check(&mut tally, &sheet, 2, &inserted, 30);
                text.extend_from_slice(&whole[(length + 1).min(whole.len())..]);
                check(&mut tally, &sheet, 2, &text, 30);
            }
        }
    }
    tally.covers(2, &["case", "claimed none", "14", "18", "19"]);
}

/// 55,296 variables, a comment of a million bytes, a number of a million digits.
#[test]
fn long_answers_are_read_alike() {
    let mut tally = Tally::default();
    let mut random = Random::new(62);
    let draft = Draft::most_cells();
    let (sheet, setting) = (draft.sheet(), draft.setting(&mut random, 8));
    for _ in 0..5 {
        let text = stating(&mut random, &setting);
        check(&mut tally, &sheet, 8, &text, 30_000);
        check(&mut tally, &sheet, 8, &text[..text.len() - 1], 30_000);
        check(&mut tally, &sheet, 7, &text, 30_000);
        let (_, text) = near_stating(&mut random, &setting);
        check(&mut tally, &sheet, 8, &text, 30_000);
    }
    let sheet = sheet_of(&[], &["p/0"], &[]);
    let comment = ["c", &"v 1 0 ".repeat(200_000), "\n"].concat();
    let answer = [
        &comment,
        "s SATISFIABLE\n",
        &comment,
        "v -1\n",
        &comment,
        "v 0\n",
        &comment,
    ]
    .concat();
    check(&mut tally, &sheet, 1, answer.as_bytes(), 30);
    check(&mut tally, &sheet, 1, &answer.as_bytes()[..answer.len() - 1], 30);
    for digit in ["0", "1", "9"] {
        let number = format!("s SATISFIABLE\nv 1{} 0\n", digit.repeat(1_000_000));
        check(&mut tally, &sheet, 1, number.as_bytes(), 30);
    }
    tally.covers(6, &["case", "18"]);
}

/// Every model is taken, however its setting is laid out, if the output is large enough.
#[test]
fn every_model_is_taken_in_any_layout() {
    for operations in BOTH {
        let mut random = Random::new(63);
        for _ in 0..5_000 {
            let (sheet, size, setting) = sheet_and_model(&mut random);
            let mut case = vec![0; 10_000];
            let length =
                (operations.read_back)(&sheet, size, Terms::AsWritten, &setting, &mut case).expect("it has a case");
            let text = stating(&mut random, &setting);
            let spare = random.below(3);
            let (answer, output) = answered(&operations, (&sheet, size), &text, length + spare);
            assert_eq!(answer, Ok(SolverAnswer::Case { length }), "{}", text.escape_ascii());
            assert_eq!(output, [&case[..length], &vec![7; spare]].concat());
            let (answer, output) = answered(&operations, (&sheet, size), &text, length - 1);
            let refusal = answer.expect_err("a byte is missing");
            assert_eq!(
                (refusal.reason, refusal.needed),
                (Reason::OutputTooShort, length as u64)
            );
            assert_eq!(output, vec![7; length - 1]);
        }
    }
}

/// A case that comes out is a model, and its setting is what the text states.
#[test]
fn what_comes_out_is_a_model() {
    for operations in BOTH {
        let mut tally = Tally::default();
        let mut random = Random::new(64);
        for _ in 0..10_000 {
            let (draft, size, setting) = draft_and_setting(&mut random);
            let sheet = draft.sheet();
            let mut text = stating(&mut random, &setting);
            if random.once_in(3) {
                text = damaged_bytes(&mut random, &text, BYTES);
            }
            match answered(&operations, (&sheet, size), &text, 30_000) {
                (Ok(SolverAnswer::Case { length }), output) => {
                    assert_eq!((operations.judge)(&sheet, &output[..length]), Ok(true));
                    let mut again = vec![0; 60_000];
                    let length = (operations.setting)(&sheet, &output[..length], &mut again).expect("it is a case");
                    assert_eq!(again[..length], stated(&text), "{}", text.escape_ascii());
                    tally.add("case", 0);
                }
                (Ok(SolverAnswer::ClaimedNone), _) => panic!("claimed none: {}", text.escape_ascii()),
                (Err(refusal), output) => {
                    assert!(output.iter().all(|&byte| byte == 7));
                    tally.add("", refusal.reason.number());
                }
            }
        }
        tally.covers(100, &["case", "14", "18", "19"]);
    }
}

/// A byte for each variable that the `v` lines name.
fn stated(text: &[u8]) -> Vec<u8> {
    let lines = text.split(|&b| b == b'\n').filter(|line| line.starts_with(b"v"));
    let words = lines.flat_map(|line| line[1..].split(|&b| b == b' '));
    let mut numbers: Vec<i64> = words
        .filter_map(|word| std::str::from_utf8(word).ok()?.parse().ok())
        .collect();
    numbers.retain(|&number| number != 0);
    numbers.sort_by_key(|number| number.abs());
    numbers.iter().map(|&number| u8::from(number > 0)).collect()
}

#[test]
fn near_misses_are_refused() {
    for operations in BOTH {
        let mut tally = Tally::default();
        let mut random = Random::new(65);
        for _ in 0..10_000 {
            let (sheet, size, setting) = sheet_and_model(&mut random);
            let (fault, text) = near_stating(&mut random, &setting);
            let (answer, output) = answered(&operations, (&sheet, size), &text, 500);
            let reason = answer.map_err(|refusal| refusal.reason);
            assert_eq!(reason, Err(Reason::BadAnswer), "{fault}: {}", text.escape_ascii());
            assert_eq!(output, [7; 500]);
            tally.add(fault, 0);
        }
        tally.covers(100, &FAULTS);
    }
}

/// None is claimed exactly by the one line that says so, with comments around it, whatever the output's length.
#[test]
fn one_text_claims_none() {
    let nothing = sheet_of(&[], &[], &[]);
    let constants = sheet_of(&["a/0", "b/0"], &[], &["- = a b"]);
    for operations in BOTH {
        let mut tally = Tally::default();
        let mut random = Random::new(66);
        for _ in 0..20_000 {
            let mut text = if random.once_in(2) {
                claiming_none(&mut random)
            } else {
                near_claiming_none(&mut random)
            };
            if random.once_in(4) {
                text = damaged_bytes(&mut random, &text, BYTES);
            }
            let lines = text.split_inclusive(|&b| b == b'\n');
            let others = lines.filter(|line| !(line.starts_with(b"c") && line.ends_with(b"\n")));
            let claims = others.collect::<Vec<_>>().concat() == b"s UNSATISFIABLE\n";
            let sheet = if random.once_in(2) { &nothing } else { &constants };
            let length = random.below(40);
            let (answer, output) = answered(&operations, (sheet, 2), &text, length);
            assert_eq!(
                answer == Ok(SolverAnswer::ClaimedNone),
                claims,
                "{}",
                text.escape_ascii()
            );
            assert_eq!(output, vec![7; length]);
            tally.add(if claims { "claimed none" } else { "not" }, 0);
        }
        tally.covers(1_000, &["claimed none", "not"]);
    }
}
