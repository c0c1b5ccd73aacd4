//! What an explanation means, tried on generated cases and held to the tables of the case alone: the clause shown fails
//! under the choice shown, nothing before it does, and there is none exactly where the case is judged a model.

use nesskettle_reference::{self as reference, sheet_of, FirstFailure, Operations, Refusal};
use nesskettle_trials::damage::damaged;
use nesskettle_trials::draft::{Draft, Style, BROAD, LONG_CLAUSES, SMALL};
use nesskettle_trials::problems::{sheet, GROUP_CASE};
use nesskettle_trials::random::Random;
use nesskettle_trials::tally::Tally;
use nesskettle_trials::truth::{choice, choices, letters, Tables};

const BOTH: [Operations; 2] = [nesskettle::OPERATIONS, reference::OPERATIONS];

/// On how many choices a clause is tried.
const MOST_CHOICES: usize = 1_000;

/// Does the clause hold under the first so many choices? Of many choices the last ones are tried.
fn holds_before(tables: &Tables, clause: &[String], number: usize) -> bool {
    let letters = letters(clause);
    let mut tried = number.saturating_sub(MOST_CHOICES)..number;
    tried.all(|n| !tables.fails(clause, &choice(&letters, tables.size, n)))
}

fn all_hold(tables: &Tables, clauses: &[Vec<String>]) -> bool {
    let holds = |clause: &Vec<String>| holds_before(tables, clause, choices(&letters(clause), tables.size));
    clauses.iter().all(holds)
}

/// The number of a choice for the clause's letters; it must have just these, with elements as values.
fn number_of(clause: &[String], size: usize, shown: &[(char, u8)]) -> usize {
    let letters = letters(clause);
    assert_eq!(shown.iter().map(|(letter, _)| *letter).collect::<Vec<_>>(), letters);
    assert!(shown.iter().all(|(_, value)| (1..=size).contains(&(*value as usize))));
    let digits = shown.iter().map(|(_, value)| *value as usize - 1);
    digits.fold(0, |number, digit| number * size + digit)
}

fn check_failure(tally: &mut Tally, draft: &Draft, tables: &Tables, failure: FirstFailure) {
    let place = failure.clause as usize - 1;
    let clause = &draft.clauses[place];
    let number = number_of(clause, tables.size, failure.choice());
    assert!(tables.fails(clause, failure.choice()), "{failure:?}");
    assert!(holds_before(tables, clause, number), "{failure:?}");
    assert!(all_hold(tables, &draft.clauses[..place]), "{failure:?}");
    tally.add(
        if place == 0 {
            "the first clause"
        } else {
            "a later clause"
        },
        0,
    );
    tally.add(
        if number == 0 {
            "the first choice"
        } else {
            "a later choice"
        },
        0,
    );
    let shown: Vec<char> = failure.choice().iter().map(|(letter, _)| *letter).collect();
    match (shown.len(), shown.is_sorted()) {
        (0, _) => tally.add("no letter", 0),
        (_, true) => tally.add("letters A, B, ..", 0),
        (_, false) => tally.add("letters in another order", 0),
    }
}

/// A draft, and a size at which its clauses have few choices.
fn draft_and_size(random: &mut Random, styles: &[Style]) -> (Draft, usize) {
    let style = *random.pick(styles);
    let draft = Draft::random(random, style);
    let most = draft.clauses.iter().map(|clause| letters(clause).len()).max();
    let mut size = random.between(1, 8);
    while size > 1 && size.pow(most.unwrap_or(0) as u32) > 20_000 {
        size -= 1;
    }
    (draft, size)
}

#[test]
fn what_is_shown_fails_and_nothing_before_it_does() {
    for operations in BOTH {
        let mut tally = Tally::default();
        let mut random = Random::new(31);
        for _ in 0..20_000 {
            let (draft, size) = draft_and_size(&mut random, &[SMALL, SMALL, BROAD, LONG_CLAUSES]);
            let case = draft.case(&mut random, size);
            let Ok(explained) = (operations.explain)(&draft.sheet(), &case) else {
                continue;
            };
            let tables = Tables::new(&draft, &case);
            match explained {
                Some(failure) => check_failure(&mut tally, &draft, &tables, failure),
                None => {
                    assert!(all_hold(&tables, &draft.clauses));
                    tally.add("yes", 0);
                }
            }
        }
        tally.covers(500, &["yes", "the first clause", "a later clause"]);
        tally.covers(500, &["the first choice", "a later choice"]);
        tally.covers(500, &["no letter", "letters A, B, ..", "letters in another order"]);
    }
}

#[test]
fn nothing_is_shown_exactly_where_the_case_is_judged_a_model() {
    for operations in BOTH {
        let mut tally = Tally::default();
        let mut random = Random::new(32);
        for _ in 0..20_000 {
            let (draft, size) = draft_and_size(&mut random, &[SMALL, SMALL, BROAD, LONG_CLAUSES]);
            let (mut sheet, mut case) = (draft.sheet(), draft.case(&mut random, size));
            match random.below(4) {
                0 => sheet = damaged(&mut random, &sheet),
                1 => case = damaged(&mut random, &case),
                _ => {}
            }
            let judged = (operations.judge)(&sheet, &case);
            let explained = (operations.explain)(&sheet, &case);
            assert_eq!(explained.map(|failure| failure.is_none()), judged);
            match judged {
                Ok(yes) => tally.add(if yes { "yes" } else { "no" }, 0),
                Err(refusal) => tally.add("", refusal.reason.number()),
            }
        }
        tally.covers(100, &["yes", "no", "2", "5", "7", "12"]);
    }
}

/// Both say that this clause fails under this choice, written as in `A=2 B=1`.
fn shows(sheet: &[u8], case: &str, clause: u64, choice: &str) {
    let pair = |word: &str| {
        (
            word.chars().next().expect("a letter"),
            word[2..].parse().expect("a value"),
        )
    };
    let expected = FirstFailure::new(clause, choice.split_whitespace().map(pair));
    explains(sheet, case, Ok(Some(expected)));
}

fn explains(sheet: &[u8], case: &str, expected: Result<Option<FirstFailure>, Refusal>) {
    for operations in BOTH {
        assert_eq!((operations.explain)(sheet, case.as_bytes()), expected, "{case}");
    }
}

#[test]
fn cases_of_the_first_example() {
    let sheet = sheet("two-constants");
    explains(sheet, "case=1\nsize=2\na=1\nb=2\n", Ok(None));
    shows(sheet, "case=1\nsize=2\na=2\nb=2\n", 1, "");
}

#[test]
fn letters_as_written_with_the_last_fastest() {
    let one = |clause: &str| sheet_of(&["f/1"], &["r/2"], &[clause]);
    let case = "case=1\nsize=2\nf=2 1\nr=1 1 0 1\n";
    shows(&one("+ r A B"), case, 1, "A=2 B=1");
    shows(&one("+ r B A"), case, 1, "B=2 A=1");
    shows(&one("+ r C D + r B A"), case, 1, "C=2 D=1 B=2 A=1");
    shows(&one("- r A B"), case, 1, "A=1 B=1");
    shows(&one("- r B B - = f A B"), case, 1, "B=1 A=2");
    // nothing is turned or merged
    shows(&one("+ = B f A"), case, 1, "B=1 A=1");
    shows(&one("- = H A"), case, 1, "H=1 A=1");
    shows(&one("- = A B + = A C"), case, 1, "A=1 B=1 C=2");
}

#[test]
fn the_first_clause_that_fails() {
    let case = "case=1\nsize=3\np=0 1 0\n";
    let clauses = |clauses: &[&str]| sheet_of(&[], &["p/1"], clauses);
    shows(&clauses(&["- p A", "+ p A"]), case, 1, "A=2");
    shows(&clauses(&["+ p A - p A", "+ p B", ""]), case, 2, "B=1");
    shows(&clauses(&["+ p A - p A", "", "+ p B"]), case, 2, "");
    shows(&clauses(&[&["+ = A A"; 63][..], &["- p H"]].concat()), case, 64, "H=2");
    explains(&clauses(&["+ p A - p A", "+ = A A"]), case, Ok(None));
    explains(&clauses(&[]), case, Ok(None));
}

#[test]
fn the_lectures_group_with_another_entry() {
    let tables = String::from_utf8_lossy(GROUP_CASE);
    explains(sheet("group"), &tables, Ok(None));
    // m inv A A is e
    shows(
        sheet("group"),
        &tables.replace("inv=1 2 3 5 4", "inv=1 2 3 4 5"),
        2,
        "A=4",
    );
    // m a b is not m b a
    shows(sheet("group"), &tables.replace("b=3", "b=2"), 4, "");
}
