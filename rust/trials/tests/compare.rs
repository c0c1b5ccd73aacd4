//! The proved library against the reference, call by call: the same answer, and every lent byte and number the same.
//!
//! Inputs are generated from fixed seeds. Each test also counts what came out, so that a generator that no longer reaches
//! a result or a refusal fails.

use nesskettle::raw::{self, ExplainAnswer, JudgeAnswer, ReadAnswer};
use nesskettle_reference::{self as reference, Terms};
use nesskettle_trials::buffers::{length_around, Lent};
use nesskettle_trials::checks::{self, check_read_back, check_write, text, OFF};
use nesskettle_trials::damage::damaged;
use nesskettle_trials::draft::{long_sheet, Draft, Style, BROAD, LIMITS, LONG_CLAUSES, SMALL};
use nesskettle_trials::expected;
use nesskettle_trials::models::{small_model, CHOICES};
use nesskettle_trials::options::{not_asked, told_no};
use nesskettle_trials::places::pointed_at;
use nesskettle_trials::problems::{self, MILLION};
use nesskettle_trials::random::Random;
use nesskettle_trials::tally::Tally;

/// Sizes that no call takes, those that a narrower number would take among them.
const BAD_SIZES: [u64; 6] = [0, 9, 10, 258, (1 << 32) + 2, u64::MAX];

/// What the column of a refused sheet points at.
const IN_SHEETS: [&str; 15] = [
    "2 at a byte",
    "2 at a line's end",
    "2 at the text's end",
    "3 at a count",
    "3 at an arity",
    "4 at a name",
    "5 at a word",
    "5 at an empty word",
    "6 at a word",
    "6 at a line's end",
    "7 at the 65th word",
    "7 at the 65th word, with 17 literals",
    "7 at the 17th sign",
    "7 at the 17th sign, with 65 words",
    "7 at its first byte, for variables",
];

const IN_CASES: [&str; 3] = ["12 at a byte", "12 at a line's end", "12 at the text's end"];

/// Counts what a refusal's column points at, if it names a line.
fn add_place(tally: &mut Tally, refused: &[u8], reason: u32, line: u64, column: u64) {
    if line > 0 {
        tally.add(&pointed_at(refused, reason, line, column), 0);
    }
}

fn check_read(tally: &mut Tally, sheet: &[u8]) {
    let nothing = ReadAnswer {
        outcome: 0,
        reason: 0,
        line: 0,
        column: 0,
        funs: 0,
        preds: 0,
        clauses: 0,
    };
    let expected = match reference::read(sheet) {
        Err(refusal) => ReadAnswer {
            reason: refusal.reason.number(),
            line: refusal.line,
            column: refusal.column,
            ..nothing
        },
        Ok(c) => ReadAnswer {
            outcome: 1,
            funs: c.functions,
            preds: c.predicates,
            clauses: c.clauses,
            ..nothing
        },
    };
    let lent = sheet.to_vec();
    // SAFETY: pointer and length are a slice's; so in the calls below.
    let answer = unsafe { raw::nk_read(lent.as_ptr(), lent.len()) };
    assert_eq!(answer, expected, "read\n{}", text(sheet));
    assert!(lent == sheet, "read changed the sheet\n{}", text(sheet));
    tally.add("read", answer.reason);
    add_place(tally, sheet, answer.reason, answer.line, answer.column);
}

fn check_judge(tally: &mut Tally, sheet: &[u8], case: &[u8]) {
    let expected = match reference::judge(sheet, case) {
        Err(refusal) => JudgeAnswer {
            outcome: 0,
            reason: refusal.reason.number(),
            line: refusal.line,
            column: refusal.column,
        },
        Ok(yes) => JudgeAnswer {
            outcome: if yes { 1 } else { 2 },
            reason: 0,
            line: 0,
            column: 0,
        },
    };
    let (lent, lent_case) = (sheet.to_vec(), case.to_vec());
    let answer = unsafe { raw::nk_judge(lent.as_ptr(), lent.len(), lent_case.as_ptr(), lent_case.len()) };
    assert_eq!(answer, expected, "judge\n{}\n{}", text(sheet), text(case));
    assert!(
        lent == sheet && lent_case == case,
        "judge changed its inputs\n{}",
        text(sheet)
    );
    tally.add(if answer.outcome == 1 { "yes" } else { "no" }, answer.reason);
    let refused = if answer.reason == 12 { case } else { sheet };
    add_place(tally, refused, answer.reason, answer.line, answer.column);
}

fn check_explain(tally: &mut Tally, sheet: &[u8], case: &[u8]) {
    let nothing = ExplainAnswer {
        outcome: 0,
        reason: 0,
        line: 0,
        column: 0,
        clause: 0,
        count: 0,
        letters: [0; 8],
        values: [0; 8],
    };
    let expected = match reference::explain(sheet, case) {
        Err(refusal) => ExplainAnswer {
            reason: refusal.reason.number(),
            line: refusal.line,
            column: refusal.column,
            ..nothing
        },
        Ok(None) => ExplainAnswer { outcome: 1, ..nothing },
        Ok(Some(failure)) => {
            let mut shown = ExplainAnswer {
                outcome: 2,
                clause: failure.clause,
                count: failure.choice().len() as u64,
                ..nothing
            };
            for (i, &(letter, value)) in failure.choice().iter().enumerate() {
                (shown.letters[i], shown.values[i]) = (letter as u8, value);
            }
            shown
        }
    };
    let (lent, lent_case) = (sheet.to_vec(), case.to_vec());
    let answer = unsafe { raw::nk_explain(lent.as_ptr(), lent.len(), lent_case.as_ptr(), lent_case.len()) };
    assert_eq!(answer, expected, "explain\n{}\n{}", text(sheet), text(case));
    assert!(
        lent == sheet && lent_case == case,
        "explain changed its inputs\n{}",
        text(sheet)
    );
    let outcome = match (answer.outcome, answer.count) {
        (1, _) => "yes".to_string(),
        (_, letters) => format!("no, letters: {letters}"),
    };
    tally.add(&outcome, answer.reason);
}

fn check_setting(tally: &mut Tally, sheet: &[u8], case: &[u8], output_length: usize) {
    let mut should = vec![0; output_length];
    let (expected, front) = expected::text(reference::setting(sheet, case, &mut should), &should);
    let (lent, lent_case) = (sheet.to_vec(), case.to_vec());
    let mut output = Lent::bytes(output_length);
    let out = output.lend();
    let answer = unsafe {
        raw::nk_setting(
            lent.as_ptr(),
            lent.len(),
            lent_case.as_ptr(),
            lent_case.len(),
            out.as_mut_ptr(),
            out.len(),
        )
    };
    let call = || format!("setting, output {output_length}\n{}\n{}", text(sheet), text(case));
    assert_eq!(answer, expected, "{}", call());
    assert!(
        lent == sheet && lent_case == case && output.holds(front),
        "lent bytes: {}",
        call()
    );
    tally.add(if front.is_empty() { "no byte" } else { "written" }, answer.reason);
}

fn check_find(tally: &mut Tally, sheet: &[u8], low: u64, high: u64, work_length: usize, output_length: usize) {
    checks::check_find(tally, sheet, (low, high), OFF, CHOICES, work_length, output_length)
}

/// A draft in one of the styles.
fn draft(random: &mut Random, styles: &[Style]) -> Draft {
    let style = *random.pick(styles);
    Draft::random(random, style)
}

/// The draft's sheet, damaged once in so many times.
fn sheet_of(random: &mut Random, draft: &Draft, damaged_once_in: usize) -> Vec<u8> {
    let sheet = draft.sheet();
    if random.once_in(damaged_once_in) {
        damaged(random, &sheet)
    } else {
        sheet
    }
}

/// A size from 1 to 8, small ones more often, at which the sheet has at most so many instances; now and then a bad one.
fn size_of(random: &mut Random, sheet: &[u8], instances: u64) -> u64 {
    if random.once_in(20) {
        return *random.pick(&BAD_SIZES);
    }
    let mut size = random.between(1, 8).min(random.between(1, 8)) as u64;
    while size > 1
        && reference::instances_and_variables(sheet, size, not_asked(Terms::AsWritten))
            .is_ok_and(|(i, _)| i > instances)
    {
        size -= 1;
    }
    size
}

#[test]
fn sheets_are_read_alike() {
    let mut tally = Tally::default();
    let mut random = Random::new(1);
    for _ in 0..150_000 {
        let draft = draft(&mut random, &[SMALL, BROAD, LONG_CLAUSES, LIMITS]);
        check_read(&mut tally, &sheet_of(&mut random, &draft, 2));
    }
    for _ in 0..50_000 {
        check_read(&mut tally, &Draft::around_clause_limits(&mut random).sheet());
    }
    for _ in 0..1_000 {
        check_read(&mut tally, &long_sheet(&mut random));
    }
    tally.covers(50, &["read", "1"]);
    tally.covers(50, &IN_SHEETS);
}

#[test]
fn every_short_input_is_read_alike() {
    let mut tally = Tally::default();
    let whole = b"sheet=1\nfuns=1\nfun=a/0\npreds=1\npred=p/1\nclauses=1\nclause=+ p a\n";
    for length in 0..=whole.len() {
        check_read(&mut tally, &whole[..length]);
        for byte in 0..=255 {
            let mut sheet = whole[..length].to_vec();
            sheet.push(byte);
            check_read(&mut tally, &sheet);
            sheet.extend_from_slice(&whole[(length + 1).min(whole.len())..]);
            check_read(&mut tally, &sheet);
        }
    }
    tally.covers(2, &["read", "2", "3", "4", "5", "6"]);
}

/// A sheet and a case, each damaged now and then; some of the cases are models.
fn sheet_and_case(random: &mut Random) -> (Vec<u8>, Vec<u8>) {
    let draft = draft(random, &[SMALL, SMALL, BROAD, LONG_CLAUSES]);
    let sheet = sheet_of(random, &draft, 10);
    let size = size_of(random, &sheet, 20_000).clamp(1, 9) as usize;
    let mut case = draft.case(random, size);
    if random.once_in(4) {
        case = small_model(&sheet).unwrap_or(case);
    }
    if random.once_in(4) {
        case = damaged(random, &case);
    }
    (sheet, case)
}

#[test]
fn cases_are_judged_alike() {
    let mut tally = Tally::default();
    let mut random = Random::new(2);
    for _ in 0..60_000 {
        let (sheet, case) = sheet_and_case(&mut random);
        check_judge(&mut tally, &sheet, &case);
    }
    tally.covers(50, &["yes", "no", "2", "5"]);
    tally.covers(50, &IN_CASES);
}

#[test]
fn failures_are_explained_alike() {
    let mut tally = Tally::default();
    let mut random = Random::new(20);
    for _ in 0..60_000 {
        let (sheet, case) = sheet_and_case(&mut random);
        check_explain(&mut tally, &sheet, &case);
    }
    tally.covers(50, &["yes", "2", "3", "4", "5", "6", "7", "12"]);
    tally.covers(
        50,
        &["no, letters: 0", "no, letters: 1", "no, letters: 2", "no, letters: 3"],
    );
}

/// A clause with up to eight letters in any order, and a case in which it fails under few choices or none.
fn many_letters(random: &mut Random) -> (Vec<u8>, Vec<u8>) {
    let words = ["A", "B", "C", "D", "E", "F", "G", "H"];
    let mut literal = || {
        format!(
            "+ t {} {} {}",
            random.pick(&words),
            random.pick(&words),
            random.pick(&words)
        )
    };
    let clause = [literal(), literal(), literal(), literal()].join(" ");
    let size = random.between(1, 3);
    let entries: Vec<&str> = (0..size.pow(3))
        .map(|_| if random.once_in(6) { "0" } else { "1" })
        .collect();
    let case = format!("case=1\nsize={size}\nt={}\n", entries.join(" "));
    (reference::sheet_of(&[], &["t/3"], &[&clause]), case.into_bytes())
}

#[test]
fn failures_with_many_letters_are_explained_alike() {
    let mut tally = Tally::default();
    let mut random = Random::new(21);
    for _ in 0..5_000 {
        let (sheet, case) = many_letters(&mut random);
        check_explain(&mut tally, &sheet, &case);
    }
    tally.covers(
        50,
        &[
            "yes",
            "no, letters: 5",
            "no, letters: 6",
            "no, letters: 7",
            "no, letters: 8",
        ],
    );
}

/// A sheet, and cases that begin as one of its cases does, with any byte after that and perhaps with the rest of it.
fn every_short_case(mut check: impl FnMut(&[u8], &[u8])) {
    let sheet = b"sheet=1\nfuns=1\nfun=f/1\npreds=1\npred=p/0\nclauses=1\nclause=+ p - = f A A\n";
    let whole = b"case=1\nsize=2\nf=2 1\np=0\n";
    for length in 0..=whole.len() {
        check(sheet, &whole[..length]);
        for byte in 0..=255 {
            let mut case = whole[..length].to_vec();
            case.push(byte);
            check(sheet, &case);
            case.extend_from_slice(&whole[(length + 1).min(whole.len())..]);
            check(sheet, &case);
        }
    }
}

#[test]
fn every_short_case_is_judged_alike() {
    let mut tally = Tally::default();
    every_short_case(|sheet, case| check_judge(&mut tally, sheet, case));
    tally.covers(2, &["yes", "no"]);
    tally.covers(2, &IN_CASES);
}

#[test]
fn every_short_case_is_explained_alike() {
    let mut tally = Tally::default();
    every_short_case(|sheet, case| check_explain(&mut tally, sheet, case));
    tally.covers(2, &["yes", "no, letters: 1", "12"]);
}

#[test]
fn clauses_are_written_alike() {
    let mut tally = Tally::default();
    let mut random = Random::new(3);
    for _ in 0..20_000 {
        let draft = draft(&mut random, &[SMALL, BROAD, LONG_CLAUSES]);
        let sheet = sheet_of(&mut random, &draft, 10);
        let size = size_of(&mut random, &sheet, 2_000);
        let needed = reference::write(&sheet, size, not_asked(Terms::AsWritten), &mut [])
            .map_or_else(|refusal| refusal.needed, |_| 0);
        let length = length_around(&mut random, needed);
        check_write(&mut tally, &sheet, size, OFF, length);
    }
    tally.covers(50, &["written", "2", "8", "11"]);
}

#[test]
fn many_clauses_are_written_alike() {
    let mut tally = Tally::default();
    let mut random = Random::new(30);
    for _ in 0..1_000 {
        let draft = Draft::around_clause_limits(&mut random);
        let sheet = draft.sheet();
        let size = random.between(1, 8) as u64;
        let needed = match reference::write(&sheet, size, not_asked(Terms::AsWritten), &mut []) {
            Err(refusal) if refusal.needed < 2_000_000 => refusal.needed,
            _ => 0,
        };
        let length = length_around(&mut random, needed);
        check_write(&mut tally, &sheet, size, OFF, length);
    }
    tally.covers(50, &["written", "7", "9", "11"]);
}

/// Exactly 1,000,000 instances are taken, one more is refused.
#[test]
fn a_million_instances_are_taken() {
    let mut tally = Tally::default();
    let needed = reference::write(MILLION, 8, not_asked(Terms::AsWritten), &mut [])
        .expect_err("no room")
        .needed as usize;
    check_write(&mut tally, MILLION, 8, OFF, needed);
    check_write(&mut tally, MILLION, 8, OFF, needed - 1);
    let (work, output) = reference::needed(MILLION, 8, told_no(Terms::AsWritten)).expect("it is a sheet");
    check_find(&mut tally, MILLION, 8, 8, work as usize, output as usize);
    let more = text(MILLION).replace("clauses=15", "clauses=16") + "clause=\n";
    check_write(&mut tally, more.as_bytes(), 8, OFF, needed + 10);
    check_find(&mut tally, more.as_bytes(), 8, 8, work as usize + 2, output as usize);
    tally.covers(1, &["written", "found", "11", "9"]);
}

#[test]
fn settings_are_read_back_alike() {
    let mut tally = Tally::default();
    let mut random = Random::new(4);
    for _ in 0..60_000 {
        let draft = draft(&mut random, &[SMALL, SMALL, BROAD]);
        let sheet = sheet_of(&mut random, &draft, 15);
        let size = size_of(&mut random, &sheet, 50_000);
        let shaped = if (1..=8).contains(&size) { size as usize } else { 1 };
        let mut setting = draft.setting(&mut random, shaped);
        if random.once_in(3) {
            damage_setting(&mut random, &mut setting);
        }
        let needed = reference::needed(&sheet, size, told_no(Terms::AsWritten)).map_or(20, |(_, output)| output);
        let length = length_around(&mut random, needed);
        check_read_back(&mut tally, &sheet, size, OFF.named, &setting, length);
    }
    tally.covers(50, &["written", "2", "8", "11", "13", "14"]);
}

#[test]
fn settings_of_cases_are_written_alike() {
    let mut tally = Tally::default();
    let mut random = Random::new(40);
    for _ in 0..60_000 {
        let (sheet, case) = sheet_and_case(&mut random);
        let needed = reference::setting(&sheet, &case, &mut []).map_or_else(|refusal| refusal.needed, |_| 0);
        let length = length_around(&mut random, needed);
        check_setting(&mut tally, &sheet, &case, length);
    }
    tally.covers(50, &["written", "no byte", "2", "3", "4", "5", "6", "7", "11", "12"]);
}

#[test]
fn the_setting_of_every_short_case_is_written_alike() {
    let mut tally = Tally::default();
    every_short_case(|sheet, case| check_setting(&mut tally, sheet, case, 5));
    tally.covers(2, &["written", "12"]);
    every_short_case(|sheet, case| check_setting(&mut tally, sheet, case, 4));
    tally.covers(2, &["11"]);
}

/// Other lengths, other bytes, other results.
fn damage_setting(random: &mut Random, setting: &mut Vec<u8>) {
    let at = random.between(0, setting.len());
    match random.below(5) {
        0 => setting.insert(at, random.below(2) as u8),
        1 => setting.truncate(at),
        2 => setting.iter_mut().for_each(|b| *b = random.below(2) as u8),
        _ if at == setting.len() => {}
        3 => setting[at] ^= 1,
        _ => setting[at] = *random.pick(&[2, 48, 49, 255]),
    }
}

#[test]
fn models_are_found_alike() {
    let mut tally = Tally::default();
    let mut random = Random::new(5);
    for _ in 0..60_000 {
        let draft = draft(&mut random, &[SMALL, SMALL, SMALL, BROAD]);
        let sheet = sheet_of(&mut random, &draft, 20);
        let high = size_of(&mut random, &sheet, 3_000);
        let low = bound_below(&mut random, high);
        let (work, output) = reference::needed(&sheet, high, told_no(Terms::AsWritten)).unwrap_or((20, 20));
        let work = length_around(&mut random, work.min(1_000_000));
        let output = length_around(&mut random, output);
        check_find(&mut tally, &sheet, low, high, work, output);
    }
    tally.covers(50, &["found", "none", "none, settled", "2", "8", "10", "11"]);
}

#[test]
fn models_of_long_clauses_are_found_alike() {
    let mut tally = Tally::default();
    let mut random = Random::new(50);
    for _ in 0..1_000 {
        let draft = Draft::around_clause_limits(&mut random);
        let sheet = draft.sheet();
        let high = random.between(1, 8) as u64;
        let low = bound_below(&mut random, high);
        let (work, output) = reference::needed(&sheet, high, told_no(Terms::AsWritten)).unwrap_or((20, 20));
        let work = length_around(&mut random, work.min(500_000));
        check_find(&mut tally, &sheet, low, high, work, output as usize);
    }
    tally.covers(20, &["found", "7", "8", "9", "10"]);
}

#[test]
fn models_of_named_problems_are_found_alike() {
    let mut tally = Tally::default();
    for problem in problems::ALL {
        for high in 1..=8 {
            let (work, output) =
                reference::needed(problem.sheet, high, told_no(Terms::AsWritten)).expect("it is a sheet");
            if work < 2_000_000 {
                let (work, output) = (work as usize, output as usize);
                checks::check_find(&mut tally, problem.sheet, (1, high), OFF, 50_000, work, output);
            }
        }
    }
    tally.covers(20, &["found", "none"]);
}

/// A lower end for the sizes: mostly 1 or the upper end, now and then a bad one.
fn bound_below(random: &mut Random, high: u64) -> u64 {
    match random.below(20) {
        0 => *random.pick(&BAD_SIZES),
        1 => high.wrapping_add(1),
        2..=8 => high,
        9..=11 => high / 2 + 1,
        _ => 1,
    }
}
