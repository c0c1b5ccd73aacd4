//! Renumber and Least form on the proved library: the reference's answer and every lent byte; and what they mean, on the library
//! and the reference alike: a renumbered model is a model, one list after another is the composed one, the reverse brings the
//! case back, and least forms are equal exactly if a list turns one case into the other.
//!
//! Inputs are generated from fixed seeds. Each test counts what came out, so that a generator that no longer reaches a result
//! or a refusal fails.

use nesskettle::raw;
use nesskettle_reference::{self as reference, sheet_of, Operations, Reason};
use nesskettle_trials::buffers::{left, length_around, Lent};
use nesskettle_trials::checks::text;
use nesskettle_trials::damage::damaged;
use nesskettle_trials::draft::{Draft, Style, BROAD, LIMITS, SMALL};
use nesskettle_trials::expected;
use nesskettle_trials::models::small_model;
use nesskettle_trials::problems::{sheet, GROUP_CASE};
use nesskettle_trials::random::Random;
use nesskettle_trials::renumbering::{composed, even_case, list, rearrangement, rearrangements, renumbered, reverse};
use nesskettle_trials::tally::Tally;
use nesskettle_trials::truth::{cell_values, is_model, models};
use std::collections::BTreeSet;

const BOTH: [Operations; 2] = [nesskettle::OPERATIONS, reference::OPERATIONS];

/// Calls the library, and holds its answer and the lent bytes against the reference's.
fn check_renumber(tally: &mut Tally, sheet: &[u8], case: &[u8], list: &[u8], output_length: usize) {
    let mut should = vec![0; output_length];
    let (expected, front) = expected::text(reference::renumber(sheet, case, list, &mut should), &should);
    let lent = [sheet, case, list].map(<[u8]>::to_vec);
    let mut output = Lent::bytes(output_length);
    let out = output.lend();
    // SAFETY: pointers and lengths are slices', and the output is lent to this call alone; so below.
    let answer = unsafe {
        raw::nk_renumber(
            lent[0].as_ptr(),
            lent[0].len(),
            lent[1].as_ptr(),
            lent[1].len(),
            lent[2].as_ptr(),
            lent[2].len(),
            out.as_mut_ptr(),
            out.len(),
        )
    };
    let call = || {
        format!(
            "renumber by {list:?}, output {output_length}\n{}\n{}",
            text(sheet),
            text(case)
        )
    };
    assert_eq!(answer, expected, "{}", call());
    assert!(
        lent == [sheet, case, list] && output.holds(front),
        "lent bytes: {}",
        call()
    );
    tally.add("renumbered", answer.reason);
}

fn check_least_form(tally: &mut Tally, sheet: &[u8], case: &[u8], output_length: usize) {
    let mut should = vec![0; output_length];
    let (expected, front) = expected::text(reference::least_form(sheet, case, &mut should), &should);
    let lent = [sheet, case].map(<[u8]>::to_vec);
    let mut output = Lent::bytes(output_length);
    let out = output.lend();
    let answer = unsafe {
        raw::nk_least_form(
            lent[0].as_ptr(),
            lent[0].len(),
            lent[1].as_ptr(),
            lent[1].len(),
            out.as_mut_ptr(),
            out.len(),
        )
    };
    let call = || format!("least form, output {output_length}\n{}\n{}", text(sheet), text(case));
    assert_eq!(answer, expected, "{}", call());
    assert!(lent == [sheet, case] && output.holds(front), "lent bytes: {}", call());
    let outcome = if front == case { "least already" } else { "another" };
    tally.add(outcome, answer.reason);
}

/// What is written with room enough.
fn renumber(operations: &Operations, sheet: &[u8], case: &[u8], list: &[u8]) -> Vec<u8> {
    left(|output| (operations.renumber)(sheet, case, list, output)).expect("it is renumbered")
}

fn least_form(operations: &Operations, sheet: &[u8], case: &[u8]) -> Vec<u8> {
    left(|output| (operations.least_form)(sheet, case, output)).expect("it has a least form")
}

/// A draft of a sheet that is taken.
fn taken(random: &mut Random, styles: &[Style]) -> Draft {
    let style = *random.pick(styles);
    let draft = Draft::random(random, style);
    if reference::read(&draft.sheet()).is_err() {
        return taken(random, styles);
    }
    draft
}

/// A case of any entries, or one that many rearrangements leave as it is.
fn any_case(random: &mut Random, draft: &Draft, size: usize) -> Vec<u8> {
    if random.once_in(3) {
        even_case(random, draft, size)
    } else {
        draft.case(random, size)
    }
}

/// A sheet and a case, damaged now and then, and the case's size before.
fn sheet_and_case(random: &mut Random, sizes: usize) -> (Vec<u8>, Vec<u8>, usize) {
    let style = *random.pick(&[SMALL, SMALL, BROAD, LIMITS]);
    let draft = Draft::random(random, style);
    let size = random.between(1, sizes).min(random.between(1, sizes));
    let (mut sheet, mut case) = (draft.sheet(), any_case(random, &draft, size));
    if random.once_in(10) {
        sheet = damaged(random, &sheet);
    }
    if random.once_in(5) {
        case = damaged(random, &case);
    }
    (sheet, case, size)
}

#[test]
fn cases_are_renumbered_alike() {
    let mut tally = Tally::default();
    let mut random = Random::new(130);
    for _ in 0..60_000 {
        let (sheet, case, size) = sheet_and_case(&mut random, 8);
        let list = list(&mut random, size);
        let output = length_around(&mut random, case.len() as u64);
        check_renumber(&mut tally, &sheet, &case, &list, output);
    }
    tally.covers(5_000, &["renumbered", "11", "12", "25"]);
    tally.covers(50, &["2", "3", "4", "5", "6", "7"]);
}

#[test]
fn least_forms_are_alike() {
    let mut tally = Tally::default();
    let mut random = Random::new(131);
    for round in 0..20_000 {
        // a size of 8 has 40,320 rearrangements
        let sizes = if round % 20 == 0 { 8 } else { 5 };
        let (sheet, case, _) = sheet_and_case(&mut random, sizes);
        let output = length_around(&mut random, case.len() as u64);
        check_least_form(&mut tally, &sheet, &case, output);
    }
    check_least_form(&mut tally, sheet("group"), GROUP_CASE, GROUP_CASE.len());
    tally.covers(1_000, &["least already", "another", "11", "12"]);
    tally.covers(10, &["2", "3", "4", "5", "6", "7"]);
}

/// Each byte of sheet, case and list changed to each other byte, and each cut after each byte.
#[test]
fn every_small_change_is_taken_alike() {
    let mut tally = Tally::default();
    let whole = [
        sheet_of(&["a/0", "f/1"], &["p/1"], &["+ p f a"]),
        b"case=1\nsize=3\na=2\nf=3 3 1\np=0 1 1\n".to_vec(),
        vec![2, 3, 1],
    ];
    for part in 0..3 {
        for at in 0..whole[part].len() {
            let mut changed = whole.clone();
            changed[part].truncate(at);
            let mut all = vec![changed];
            for byte in 0..=255 {
                let mut changed = whole.clone();
                changed[part][at] = byte;
                all.push(changed);
            }
            for [sheet, case, list] in &all {
                check_renumber(&mut tally, sheet, case, list, 50);
                check_least_form(&mut tally, sheet, case, 50);
            }
        }
    }
    tally.covers(50, &["renumbered", "another", "2", "12", "25"]);
}

/// Every list of up to five small numbers is taken exactly if it has each element once.
#[test]
fn a_list_is_taken_exactly_if_it_is_a_rearrangement() {
    let sheet = sheet_of(&["f/1"], &[], &[]);
    for size in 1..=4 {
        let draft = Draft::of_sheet(&sheet);
        let case = draft.case(&mut Random::new(132), size);
        let all = rearrangements(size);
        let mut lists = vec![Vec::new()];
        for _ in 0..=5 {
            for operations in BOTH {
                let taken = |list: &&Vec<u8>| match (operations.renumber)(&sheet, &case, list, &mut [0; 100]) {
                    Ok(length) => length == case.len(),
                    Err(refusal) => refusal.reason != Reason::BadList,
                };
                let is_whole = lists[0].len() == size;
                assert_eq!(lists.iter().filter(taken).count(), if is_whole { all.len() } else { 0 });
                assert!(!is_whole || all.iter().all(|list| taken(&list)));
            }
            let longer = |list: &Vec<u8>| (0..6).map(|n| [&list[..], &[n]].concat()).collect::<Vec<_>>();
            lists = lists.iter().flat_map(longer).collect();
        }
    }
}

/// A renumbered case is a model exactly if the case is, and it is the case that its tables say.
#[test]
fn a_renumbered_model_is_a_model() {
    for operations in BOTH {
        let mut tally = Tally::default();
        let mut random = Random::new(133);
        for _ in 0..6_000 {
            let draft = taken(&mut random, &[SMALL]);
            let sheet = draft.sheet();
            let size = random.between(1, 4);
            let any = draft.case(&mut random, size);
            let case = small_model(&sheet).filter(|_| random.once_in(2)).unwrap_or(any);
            let list = rearrangement(&mut random, usize::from(case[12] - b'0'));
            let twin = renumber(&operations, &sheet, &case, &list);
            assert_eq!(twin, renumbered(&draft, &case, &list));
            let fits = (operations.judge)(&sheet, &case).expect("it is a case");
            assert_eq!((operations.judge)(&sheet, &twin), Ok(fits));
            assert_eq!(is_model(&draft, &twin), fits);
            tally.add(if fits { "a model" } else { "no model" }, 0);
            tally.add(if twin == case { "the same" } else { "another" }, 0);
        }
        tally.covers(1_000, &["a model", "no model", "the same", "another"]);
    }
}

#[test]
fn one_list_after_another_is_the_composed_one_and_the_reverse_brings_back() {
    for operations in BOTH {
        let mut random = Random::new(134);
        for _ in 0..10_000 {
            let draft = taken(&mut random, &[SMALL, BROAD]);
            let size = random.between(1, 8).min(random.between(1, 8));
            let (sheet, case) = (draft.sheet(), any_case(&mut random, &draft, size));
            let renumber = |case: &[u8], list: &[u8]| renumber(&operations, &sheet, case, list);
            let [p, q] = [0, 1].map(|_| rearrangement(&mut random, size));
            let once = renumber(&case, &p);
            assert_eq!(renumber(&once, &q), renumber(&case, &composed(&p, &q)), "{p:?}, {q:?}");
            assert_eq!(renumber(&once, &reverse(&p)), case, "{p:?}");
        }
    }
}

/// A case of the same size: a renumbering, perhaps with one entry changed, or any.
fn other_case(random: &mut Random, draft: &Draft, case: &[u8], size: usize) -> Vec<u8> {
    let mut twin = renumbered(draft, case, &rearrangement(random, size));
    match random.below(3) {
        0 => twin,
        1 => {
            let entries: Vec<usize> = (14..twin.len())
                .filter(|&i| matches!(twin[i - 1], b'=' | b' '))
                .collect();
            if !entries.is_empty() {
                // an entry that every table of two elements and more can have
                twin[*random.pick(&entries)] = b'1';
            }
            twin
        }
        _ => any_case(random, draft, size),
    }
}

#[test]
fn least_forms_are_equal_exactly_if_a_list_turns_one_into_the_other() {
    for operations in BOTH {
        let mut tally = Tally::default();
        let mut random = Random::new(135);
        for _ in 0..6_000 {
            let draft = taken(&mut random, &[SMALL]);
            let size = random.between(1, 4);
            let (sheet, case) = (draft.sheet(), any_case(&mut random, &draft, size));
            let other = other_case(&mut random, &draft, &case, size);
            let twins: BTreeSet<Vec<u8>> = rearrangements(size)
                .iter()
                .map(|list| renumber(&operations, &sheet, &case, list))
                .collect();
            let forms = [&case, &other].map(|case| least_form(&operations, &sheet, case));
            assert_eq!(
                forms[0] == forms[1],
                twins.contains(&other),
                "{}\n{}",
                text(&case),
                text(&other)
            );
            assert_eq!(Some(&forms[0]), twins.first(), "{}", text(&case));
            assert_eq!(least_form(&operations, &sheet, &forms[0]), forms[0]);
            let outcome = match (case == other, twins.contains(&other)) {
                (true, _) => "equal",
                (false, true) => "renumbered",
                (false, false) => "two cases",
            };
            tally.add(outcome, 0);
        }
        tally.covers(500, &["equal", "renumbered", "two cases"]);
    }
}

/// How many there are up to renumbering is known: maps, relations, operations on two and three elements, constants.
#[test]
fn there_are_as_many_least_forms_as_is_known() {
    let maps = sheet_of(&["f/1"], &[], &[]);
    let relations = sheet_of(&[], &["r/2"], &[]);
    let operations = sheet_of(&["g/2"], &[], &[]);
    let constants = sheet_of(&["a/0", "b/0", "c/0", "d/0"], &[], &[]);
    let known = [
        (&maps, vec![1, 3, 7, 19, 47]),
        (&relations, vec![2, 10, 104]),
        (&operations, vec![1, 10, 3_330]),
        // each way of saying which of four constants are equal, with at most so many elements
        (&constants, vec![1, 8, 14, 15, 15]),
    ];
    for (sheet, counts) in known {
        let draft = Draft::of_sheet(sheet);
        for (size, count) in (1..).zip(counts) {
            let cases = models(&draft, size);
            assert_eq!(
                cases.len(),
                cell_values(&draft, size).iter().map(|values| values.len()).product()
            );
            for implementation in BOTH {
                let forms: BTreeSet<_> = cases
                    .iter()
                    .map(|case| least_form(&implementation, sheet, case))
                    .collect();
                assert_eq!(
                    forms.len(),
                    count,
                    "{}, size {size}\n{}",
                    implementation.name,
                    text(sheet)
                );
                assert!(forms.is_subset(&cases));
            }
        }
    }
}

/// The model that Find finds, told no, is the least of all, and so its own least form.
#[test]
fn the_least_model_is_its_least_form() {
    let mut random = Random::new(136);
    let mut found = 0;
    for _ in 0..2_000 {
        let sheet = taken(&mut random, &[SMALL]).sheet();
        let Some(case) = small_model(&sheet) else {
            continue;
        };
        found += 1;
        for operations in BOTH {
            assert_eq!(least_form(&operations, &sheet, &case), case);
        }
    }
    assert!(found > 500, "only {found} models");
}

#[test]
fn examples() {
    let of_all = sheet_of(&["a/0", "f/1", "g/2"], &["o/0", "p/1", "r/2"], &[]);
    let case = b"case=1\nsize=3\na=1\nf=2 3 3\ng=1 1 2 3 3 2 1 2 3\no=1\np=1 0 0\nr=0 1 1 0 0 1 0 0 0\n";
    // 1 becomes 2, 2 becomes 3, 3 becomes 1: f leads from 2 to 3, from 3 to 1 and from 1 to 1
    let turned = b"case=1\nsize=3\na=2\nf=1 3 1\ng=1 2 3 3 2 2 3 1 1\no=1\np=0 1 0\nr=0 0 0 1 0 1 1 0 0\n";
    let constants = sheet_of(&["a/0", "b/0", "c/0"], &[], &[]);
    let none = sheet_of(&[], &[], &[]);
    for operations in BOTH {
        let turn = |case: &[u8], list: &[u8]| text(&renumber(&operations, &of_all, case, list));
        assert_eq!(turn(case, &[2, 3, 1]), text(turned));
        assert_eq!(turn(turned, &[3, 1, 2]), text(case));
        assert_eq!(turn(case, &[1, 2, 3]), text(case));
        let least = |sheet: &[u8], case: &[u8]| text(&least_form(&operations, sheet, case));
        assert_eq!(least(&of_all, case), least(&of_all, turned));
        assert_eq!(
            least(&constants, b"case=1\nsize=8\na=7\nb=3\nc=7\n"),
            "case=1\nsize=8\na=1\nb=2\nc=1\n"
        );
        assert_eq!(
            renumber(&operations, &none, b"case=1\nsize=2\n", &[2, 1]),
            b"case=1\nsize=2\n"
        );
        assert_eq!(least(&none, b"case=1\nsize=8\n"), "case=1\nsize=8\n");
    }
}

/// Sheet, 12, 25, 11, each before those after it.
#[test]
fn refusals_come_in_their_order() {
    let sheet = sheet_of(&["f/1"], &["p/1"], &["+ p f A"]);
    let case = b"case=1\nsize=2\nf=2 1\np=1 1\n";
    let bad_case = b"case=1\nsize=2\nf=2 3\np=1 1\n";
    let bad_sheet = &sheet[..sheet.len() - 1];
    for operations in BOTH {
        let refused = |sheet: &[u8], case: &[u8], list: &[u8], output: usize| {
            let refusal = (operations.renumber)(sheet, case, list, &mut vec![7; output]).expect_err("it is refused");
            (refusal.reason, refusal.line, refusal.column, refusal.needed)
        };
        assert_eq!(refused(bad_sheet, bad_case, &[1, 1], 0), (Reason::Layout, 7, 15, 0));
        assert_eq!(refused(&sheet, bad_case, &[1, 1], 0), (Reason::BadCase, 3, 5, 0));
        assert_eq!(refused(&sheet, case, &[1, 1], 0), (Reason::BadList, 0, 0, 0));
        let length = case.len();
        let short = (Reason::OutputTooShort, 0, 0, length as u64);
        assert_eq!(refused(&sheet, case, &[2, 1], length - 1), short);
        assert_eq!((operations.renumber)(&sheet, case, &[2, 1], &mut [7; 100]), Ok(length));
        let refused = |sheet: &[u8], case: &[u8], output: usize| {
            let refusal = (operations.least_form)(sheet, case, &mut vec![7; output]).expect_err("it is refused");
            (refusal.reason, refusal.line, refusal.column, refusal.needed)
        };
        assert_eq!(refused(bad_sheet, bad_case, 0), (Reason::Layout, 7, 15, 0));
        assert_eq!(refused(&sheet, bad_case, 0), (Reason::BadCase, 3, 5, 0));
        assert_eq!(refused(&sheet, case, length - 1), short);
        assert_eq!((operations.least_form)(&sheet, case, &mut [7; 100]), Ok(length));
    }
}
