//! What a column means, tried on generated texts: for 2 and 12 the byte there is the first that nothing after it puts right,
//! and for 6 the word is.
//!
//! Each refused text is changed after its column, which must not help, and cut before it, where some ending must.

use nesskettle_reference::{self as reference, Operations, Reason, Refusal};
use nesskettle_trials::damage::damaged;
use nesskettle_trials::draft::{Draft, SMALL};
use nesskettle_trials::places::{offset, pointed_at};
use nesskettle_trials::random::Random;
use nesskettle_trials::tally::Tally;

/// How many other endings each refused text gets.
const ENDINGS: usize = 20;

const BOTH: [Operations; 2] = [nesskettle::OPERATIONS, reference::OPERATIONS];

/// A refused text, and the call that refused it.
struct Refused<'a> {
    text: &'a [u8],
    refusal: Refusal,
    call: &'a dyn Fn(&[u8]) -> Option<Refusal>,
}

impl Refused<'_> {
    /// How many bytes stand before the line and column.
    fn place(&self) -> usize {
        offset(self.text, self.refusal.line, self.refusal.column)
    }

    /// Is the text with this ending still refused on that line with that number, or with a lower one?
    fn remains(&self, kept: usize, ending: &[u8]) -> bool {
        let changed = [&self.text[..kept], ending].concat();
        (self.call)(&changed).is_some_and(|other| {
            let on_the_line = other.line == self.refusal.line || other.line == 0;
            on_the_line && other.reason <= self.refusal.reason
        })
    }

    fn no_ending_helps(&self, kept: usize, mut ending: impl FnMut() -> Vec<u8>) {
        for _ in 0..ENDINGS {
            let ending = ending();
            assert!(
                self.remains(kept, &ending),
                "{} of {} is cleared by {}",
                self.refusal,
                self.text.escape_ascii(),
                ending.escape_ascii()
            );
        }
    }

    fn some_ending_helps(&self, kept: usize, mut endings: impl Iterator<Item = Vec<u8>>) {
        assert!(
            endings.any(|ending| !self.remains(kept, &ending)),
            "{} of {} comes too late",
            self.refusal,
            self.text.escape_ascii()
        );
    }

    fn count(&self, tally: &mut Tally) {
        let Refusal {
            reason, line, column, ..
        } = self.refusal;
        tally.add(&pointed_at(self.text, reason.number(), line, column), 0);
    }
}

/// Any bytes, or the end of the text itself, from anywhere on.
fn any_ending(random: &mut Random, text: &[u8]) -> Vec<u8> {
    let bytes = b"\n\n =/+-01289aAfp";
    let mut ending: Vec<u8> = (0..random.below(12)).map(|_| *random.pick(bytes)).collect();
    if random.once_in(2) {
        ending.extend(&text[random.between(0, text.len())..]);
    }
    ending
}

/// Every ending of every kind of line that a sheet has.
fn ends_of_sheet_lines() -> impl Iterator<Item = Vec<u8>> {
    let lines: [&[u8]; 7] = [
        b"sheet=1\n",
        b"funs=1\n",
        b"fun=a/0\n",
        b"preds=1\n",
        b"pred=a/0\n",
        b"clauses=1\n",
        b"clause=\n",
    ];
    let endings = |line: &'static [u8]| (0..=line.len()).map(|start| line[start..].to_vec());
    lines.into_iter().flat_map(endings)
}

#[test]
fn the_first_byte_of_a_sheet_that_nothing_puts_right() {
    for operations in BOTH {
        let call = |sheet: &[u8]| (operations.read)(sheet).err();
        let mut tally = Tally::default();
        let mut random = Random::new(21);
        for _ in 0..10_000 {
            let sheet = Draft::random(&mut random, SMALL).sheet();
            let text = damaged(&mut random, &sheet);
            let Some(refusal) = call(&text).filter(|r| r.reason == Reason::Layout) else {
                continue;
            };
            let refused = Refused {
                text: &text,
                refusal,
                call: &call,
            };
            let place = refused.place();
            if place < text.len() {
                refused.no_ending_helps(place + 1, || any_ending(&mut random, &text));
            }
            refused.some_ending_helps(place, ends_of_sheet_lines());
            refused.count(&mut tally);
        }
        tally.covers(100, &["2 at a byte", "2 at a line's end", "2 at the text's end"]);
    }
}

/// The line of a case with this number as it may be laid out, every value 1; nothing after the last line.
fn case_line(draft: &Draft, case: &[u8], number: u64) -> Vec<u8> {
    let symbol = match number {
        1 => return b"case=1\n".to_vec(),
        2 => return b"size=1\n".to_vec(),
        _ => draft.symbols().nth(number as usize - 3),
    };
    symbol.map_or(Vec::new(), |symbol| {
        // the line before has been as laid out, the size is its last byte
        let size = case.split(|&b| b == b'\n').nth(1).and_then(|line| line.last());
        let size = size.map_or(1, |digit| (digit - b'0') as usize);
        let values = vec!["1"; size.pow(symbol.arity as u32)].join(" ");
        format!("{}={values}\n", symbol.name).into_bytes()
    })
}

#[test]
fn the_first_byte_of_a_case_that_nothing_puts_right() {
    for operations in BOTH {
        let mut tally = Tally::default();
        let mut random = Random::new(22);
        for _ in 0..10_000 {
            let mut draft = Draft::random(&mut random, SMALL);
            draft.clauses.clear();
            let sheet = draft.sheet();
            let call = |case: &[u8]| (operations.judge)(&sheet, case).err();
            let size = random.between(1, 4);
            let case = draft.case(&mut random, size);
            let text = damaged(&mut random, &case);
            let Some(refusal) = call(&text) else { continue };
            assert_eq!(refusal.reason, Reason::BadCase);
            let refused = Refused {
                text: &text,
                refusal,
                call: &call,
            };
            let place = refused.place();
            if place < text.len() {
                refused.no_ending_helps(place + 1, || any_ending(&mut random, &text));
            }
            let line = case_line(&draft, &text, refusal.line);
            let rest = line.get(refusal.column as usize - 1..).unwrap_or_default();
            refused.some_ending_helps(place, [rest.to_vec()].into_iter());
            refused.count(&mut tally);
        }
        tally.covers(100, &["12 at a byte", "12 at a line's end", "12 at the text's end"]);
    }
}

/// Words after others, and the line's end.
fn any_words(random: &mut Random, draft: &Draft) -> Vec<u8> {
    let mut words = vec!["+", "-", "=", "A", "B", "x", ""];
    words.extend(draft.symbols().map(|symbol| symbol.name.as_str()));
    let mut ending: String = (0..random.below(8))
        .map(|_| format!(" {}", random.pick(&words)))
        .collect();
    ending.push('\n');
    ending.into_bytes()
}

/// What makes a clause of its beginning: an atom after a sign, or as many terms as are due.
fn ends_of_clauses() -> impl Iterator<Item = Vec<u8>> {
    let terms = (0..60).map(|count| " A".repeat(count) + "\n");
    let atom = " = A A\n".to_string();
    terms.chain([atom]).map(String::into_bytes)
}

#[test]
fn the_first_word_that_nothing_puts_right() {
    for operations in BOTH {
        let call = |sheet: &[u8]| (operations.read)(sheet).err();
        let mut tally = Tally::default();
        let mut random = Random::new(23);
        for _ in 0..60_000 {
            let draft = Draft::random(&mut random, SMALL);
            let text = damaged(&mut random, &draft.sheet());
            let Some(refusal) = call(&text).filter(|r| r.reason == Reason::NotAClause) else {
                continue;
            };
            let refused = Refused {
                text: &text,
                refusal,
                call: &call,
            };
            let place = refused.place();
            let word = text[place..]
                .split(|&b| b == b' ' || b == b'\n')
                .next()
                .unwrap_or_default();
            if word.is_empty() {
                refused.no_ending_helps(place + 1, || any_ending(&mut random, &text));
            } else {
                refused.no_ending_helps(place + word.len(), || any_words(&mut random, &draft));
            }
            // the space before the word goes with it
            let kept = if text[place - 1] == b' ' { place - 1 } else { place };
            refused.some_ending_helps(kept, ends_of_clauses());
            refused.count(&mut tally);
        }
        tally.covers(50, &["6 at a word", "6 at a line's end"]);
    }
}
