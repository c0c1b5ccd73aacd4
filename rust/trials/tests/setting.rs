//! What a setting means, tried on generated cases and settings: setting and case lead to each other, and a setting
//! satisfies the clauses that Write leaves exactly if its case is a model.

use nesskettle_reference::{self as reference, sheet_of, Operations, Reason, Terms};
use nesskettle_trials::buffers::left;
use nesskettle_trials::dimacs::Dimacs;
use nesskettle_trials::draft::{Draft, Style, BROAD, SMALL};
use nesskettle_trials::models::small_model;
use nesskettle_trials::options::not_asked;
use nesskettle_trials::problems::{sheet, GROUP_CASE};
use nesskettle_trials::random::Random;
use nesskettle_trials::tally::Tally;

const BOTH: [Operations; 2] = [nesskettle::OPERATIONS, reference::OPERATIONS];

fn setting_of(operations: &Operations, sheet: &[u8], case: &[u8]) -> Vec<u8> {
    left(|output| (operations.setting)(sheet, case, output)).expect("it is a case")
}

/// A draft of a sheet that is taken, and a size, small ones more often.
fn draft_and_size(random: &mut Random, styles: &[Style]) -> (Draft, usize) {
    let style = *random.pick(styles);
    let draft = Draft::random(random, style);
    if reference::read(&draft.sheet()).is_err() {
        return draft_and_size(random, styles);
    }
    (draft, random.between(1, 8).min(random.between(1, 8)))
}

#[test]
fn the_setting_of_a_case_is_read_back_as_the_case() {
    for operations in BOTH {
        let mut random = Random::new(41);
        for _ in 0..20_000 {
            let (draft, size) = draft_and_size(&mut random, &[SMALL, BROAD]);
            let (sheet, case) = (draft.sheet(), draft.case(&mut random, size));
            let setting = setting_of(&operations, &sheet, &case);
            let again = left(|output| (operations.read_back)(&sheet, size as u64, Terms::AsWritten, &setting, output));
            assert_eq!(again, Ok(case));
        }
    }
}

#[test]
fn a_setting_is_that_of_the_case_that_is_read_back() {
    for operations in BOTH {
        let mut tally = Tally::default();
        let mut random = Random::new(42);
        for _ in 0..20_000 {
            let (draft, size) = draft_and_size(&mut random, &[SMALL, BROAD]);
            let sheet = draft.sheet();
            let mut setting = draft.setting(&mut random, size);
            if !setting.is_empty() && random.once_in(4) {
                let at = random.below(setting.len());
                setting[at] = random.below(3) as u8;
            }
            match left(|output| (operations.read_back)(&sheet, size as u64, Terms::AsWritten, &setting, output)) {
                Ok(case) => {
                    assert_eq!(setting_of(&operations, &sheet, &case), setting);
                    tally.add("read back", 0);
                }
                Err(refusal) => tally.add("", refusal.reason.number()),
            }
        }
        tally.covers(100, &["read back", "13", "14"]);
    }
}

/// The setting of the case satisfies what Write leaves exactly if Judge says yes.
fn check_satisfied(operations: &Operations, tally: &mut Tally, sheet: &[u8], case: &[u8]) {
    let size = u64::from(case[12] - b'0');
    let clauses = match left(|output| (operations.write)(sheet, size, not_asked(Terms::AsWritten), output)) {
        Ok(text) => Dimacs::new(text),
        Err(refusal) => return tally.add("", refusal.reason.number()),
    };
    let is_model = (operations.judge)(sheet, case).expect("it is a case");
    let setting = setting_of(operations, sheet, case);
    assert_eq!(clauses.satisfied_by(&setting), is_model);
    tally.add(if is_model { "a model" } else { "no model" }, 0);
}

#[test]
fn a_setting_satisfies_the_clauses_exactly_if_the_case_is_a_model() {
    for operations in BOTH {
        let mut tally = Tally::default();
        let mut random = Random::new(43);
        for _ in 0..3_000 {
            let (draft, size) = draft_and_size(&mut random, &[SMALL, SMALL, BROAD]);
            let (sheet, mut case) = (draft.sheet(), draft.case(&mut random, size.min(4)));
            if random.once_in(2) {
                case = small_model(&sheet).unwrap_or(case);
            }
            check_satisfied(&operations, &mut tally, &sheet, &case);
        }
        check_satisfied(&operations, &mut tally, sheet("group"), GROUP_CASE);
        tally.covers(500, &["a model", "no model"]);
    }
}

/// Every setting of a few variables: the ones that are read back are those of the cases, one each, and as many of them
/// satisfy the clauses as there are models.
#[test]
fn every_setting_of_small_sheets() {
    let sheets = [
        sheet_of(&["a/0", "b/0"], &[], &["- = a b"]),
        sheet_of(&["f/1"], &["p/1"], &["- p A + p f A", "- = f A A"]),
        sheet_of(&["a/0"], &["p/0", "r/2"], &["+ r A a", "- r A B - r B A + = A B + p"]),
        sheet_of(&[], &["p/0", "q/1"], &["+ p + q A"]),
    ];
    for (operations, sheet) in BOTH.iter().flat_map(|o| sheets.iter().map(move |sheet| (o, sheet))) {
        let mut models = 0;
        let mut satisfying = 0;
        let (_, variables) =
            reference::instances_and_variables(sheet, 2, not_asked(Terms::AsWritten)).expect("it is a sheet");
        let clauses =
            left(|output| (operations.write)(sheet, 2, not_asked(Terms::AsWritten), output)).expect("it is written");
        let clauses = Dimacs::new(clauses);
        for number in 0..1 << variables {
            let setting: Vec<u8> = (0..variables).map(|n| (number >> n & 1) as u8).collect();
            satisfying += usize::from(clauses.satisfied_by(&setting));
            match left(|output| (operations.read_back)(sheet, 2, Terms::AsWritten, &setting, output)) {
                Ok(case) => {
                    assert_eq!(setting_of(operations, sheet, &case), setting);
                    models += usize::from((operations.judge)(sheet, &case) == Ok(true));
                }
                Err(refusal) => assert_eq!(refusal.reason, Reason::NotOneResult),
            }
        }
        assert!(
            models > 0 && models == satisfying,
            "{models} models, {satisfying} settings"
        );
    }
}
