//! Answers of SAT solvers as texts: a setting in every layout, claims that there is none, and texts that are not quite as
//! laid out.

use crate::random::Random;

/// Lines that are passed over, some with what means something in others.
const COMMENTS: [&[u8]; 10] = [
    b"c",
    b"c ",
    b"cnf",
    b"c 17 conflicts",
    b"c s SATISFIABLE",
    b"c v 1 -2 0",
    b"cv 0",
    b"c\r",
    b"c\tx\0\xff",
    b"c  ",
];

const SATISFIABLE: &str = "s SATISFIABLE";
const UNSATISFIABLE: &str = "s UNSATISFIABLE";
/// What does not say that the clauses are satisfied.
const OTHER_S_LINES: [&str; 11] = [
    UNSATISFIABLE,
    "s UNKNOWN",
    "s satisfiable",
    "S SATISFIABLE",
    "SATISFIABLE",
    "sSATISFIABLE",
    "s",
    "s ",
    "s  SATISFIABLE",
    "s SATISFIABLE 1",
    "s SATISFIABL",
];

/// A text that states the setting: its numbers in any order and any split into lines, comments anywhere.
pub fn stating(random: &mut Random, setting: &[u8]) -> Vec<u8> {
    let words = words(random, setting);
    let lines = lines(random, &words);
    text(random, &lines)
}

/// A text that claims that there is no model.
pub fn claiming_none(random: &mut Random) -> Vec<u8> {
    text(random, &[UNSATISFIABLE.to_string()])
}

/// A text that states the setting but for one fault, and the fault.
pub fn near_stating(random: &mut Random, setting: &[u8]) -> (&'static str, Vec<u8>) {
    let mut words = words(random, setting);
    if random.once_in(2) {
        let fault = wrong_words(random, &mut words);
        let lines = lines(random, &words);
        return (fault, text(random, &lines));
    }
    let mut lines = lines(random, &words);
    let fault = match random.below(12) {
        0..=2 => wrong_line(random, &mut lines),
        3..=6 => another_line(random, &mut lines),
        7..=10 => wrong_order(random, &mut lines),
        _ => NO_LINE_FEED,
    };
    let mut text = text(random, &lines);
    if fault == NO_LINE_FEED {
        text.pop();
    }
    (fault, text)
}

/// A text that claims that there is no model but for one fault.
pub fn near_claiming_none(random: &mut Random) -> Vec<u8> {
    let mut lines = vec![UNSATISFIABLE.to_string()];
    let more = ["", "v 0", "v 1 0", "v", "v ", UNSATISFIABLE, SATISFIABLE, "x", " "];
    let names = [
        "s UNSATISFIABL",
        "s UNSATISFIABLEE",
        "UNSATISFIABLE",
        "s NONE",
        "s  UNSATISFIABLE",
    ];
    match random.below(4) {
        0 => lines.insert(random.below(2), random.pick(&more).to_string()),
        1 => lines[0] = random.pick(&names).to_string(),
        2 => lines[0] += *random.pick(&[" ", "\r", "\t", " 0"]),
        _ => {
            let mut text = text(random, &lines);
            text.pop();
            return text;
        }
    }
    text(random, &lines)
}

/// The numbers of a setting in any order, 0 last.
fn words(random: &mut Random, setting: &[u8]) -> Vec<String> {
    let signed = |(&byte, variable): (&u8, usize)| format!("{}{variable}", if byte == 1 { "" } else { "-" });
    let mut words: Vec<String> = setting.iter().zip(1..).map(signed).collect();
    if random.once_in(2) {
        for i in 1..words.len() {
            words.swap(i, random.between(0, i));
        }
    }
    words.push("0".to_string());
    words
}

/// The `s` line, and the words in `v` lines of any length.
fn lines(random: &mut Random, words: &[String]) -> Vec<String> {
    let mut lines = vec![SATISFIABLE.to_string()];
    let longest = *random.pick(&[1, 2, 8, words.len().max(1)]);
    let mut rest = words;
    while !rest.is_empty() {
        let (line, after) = rest.split_at(random.between(1, longest.min(rest.len())));
        lines.push(format!("v {}", line.join(" ")));
        rest = after;
    }
    lines
}

/// The lines with comments among them, each with its line feed.
fn text(random: &mut Random, lines: &[String]) -> Vec<u8> {
    let often = *random.pick(&[2, 5, 1_000]);
    let mut text = Vec::new();
    for line in lines {
        comments(random, often, &mut text);
        text.extend_from_slice(line.as_bytes());
        text.push(b'\n');
    }
    comments(random, often, &mut text);
    text
}

fn comments(random: &mut Random, often: usize, text: &mut Vec<u8>) {
    while random.once_in(often) {
        text.extend_from_slice(random.pick::<&[u8]>(&COMMENTS));
        text.push(b'\n');
    }
}

/// The faults of [`near_stating`].
pub const FAULTS: [&str; 24] = [
    "missing",
    "doubled",
    "both signs",
    "above the last",
    "above the last for another",
    "0 in the middle",
    "no 0",
    "another 0",
    "plus sign",
    "leading zero",
    "two spaces",
    "no number",
    "CR",
    "tab",
    "empty line",
    "second s line",
    "v before s",
    "no s line",
    "another s line",
    "space at an end",
    "v line without a number",
    "another line",
    "no v line",
    NO_LINE_FEED,
];

const NO_LINE_FEED: &str = "no line feed";

/// Puts one fault into the words.
fn wrong_words(random: &mut Random, words: &mut Vec<String>) -> &'static str {
    let variables = words.len() - 1;
    let at = random.below(words.len());
    if variables == 0 || random.once_in(2) {
        return wrong_word(random, words, at);
    }
    let one = random.below(variables);
    match random.below(6) {
        0 => {
            words.remove(one);
            "missing"
        }
        1 => {
            words.insert(at, words[one].clone());
            "doubled"
        }
        2 => {
            let word = &words[one];
            let other = word.strip_prefix('-').map_or(format!("-{word}"), str::to_string);
            words.insert(at, other);
            "both signs"
        }
        3 => {
            let digits = words[one].trim_start_matches('-');
            let variable = digits.parse().expect("a number");
            words[one] = words[one].replace(digits, &above(random, variables, variable));
            "above the last for another"
        }
        4 => {
            words[one].insert(0, '+');
            "plus sign"
        }
        _ => {
            let sign = usize::from(words[one].starts_with('-'));
            words[one].insert_str(sign, &"0".repeat(random.between(1, 3)));
            "leading zero"
        }
    }
}

/// The faults that need no variable.
fn wrong_word(random: &mut Random, words: &mut Vec<String>, at: usize) -> &'static str {
    let last = words.len() - 1;
    match random.below(6) {
        0 => {
            let variable = random.between(0, last);
            let sign = *random.pick(&["", "-"]);
            words.insert(at, sign.to_string() + &above(random, last, variable));
            "above the last"
        }
        1 => {
            words.insert(at, "0".to_string());
            "0 in the middle"
        }
        2 => {
            words.pop();
            "no 0"
        }
        3 => {
            words[last] = random.pick(&["-0", "+0", "00", "-00"]).to_string();
            "another 0"
        }
        4 => {
            words.insert(random.between(0, words.len()), String::new());
            "two spaces"
        }
        _ => {
            let others = ["-", "x", "1x", "--1", "1-", "v", "1.0", "0x1", "\u{b9}", ","];
            words.insert(at, random.pick(&others).to_string());
            "no number"
        }
    }
}

/// A number above the last variable, also one that narrow arithmetic takes for this variable.
fn above(random: &mut Random, variables: usize, variable: usize) -> String {
    let wrapped = |bits: u32| ((1u128 << bits) + variable as u128).to_string();
    match random.below(5) {
        0 => (variables + 1).to_string(),
        1 => (variables + random.between(1, 1_000_000)).to_string(),
        2 => wrapped(*random.pick(&[16, 31, 32])),
        3 => wrapped(*random.pick(&[63, 64])),
        _ => format!("9{}{variable}", "0".repeat(random.between(20, 900))),
    }
}

/// Puts one fault into a line.
fn wrong_line(random: &mut Random, lines: &mut [String]) -> &'static str {
    let line = &mut lines[random.below(lines.len())];
    match random.below(3) {
        0 => {
            line.push('\r');
            "CR"
        }
        1 => {
            *line = line.replacen(' ', "\t", 1);
            "tab"
        }
        _ => {
            line.insert(*random.pick(&[0, line.len()]), ' ');
            "space at an end"
        }
    }
}

/// Puts in one line more than there may be.
fn another_line(random: &mut Random, lines: &mut Vec<String>) -> &'static str {
    let others = ["o 12", "d 1 0", "p cnf 1 1", "0", "1 0", "C", "V 0", "v0", "\0", "v 0"];
    let (line, fault) = match random.below(4) {
        0 => ("", "empty line"),
        1 => (*random.pick(&[SATISFIABLE, UNSATISFIABLE]), "second s line"),
        2 => (*random.pick(&["v", "v "]), "v line without a number"),
        _ => (*random.pick(&others), "another line"),
    };
    lines.insert(random.between(0, lines.len()), line.to_string());
    fault
}

/// Puts other lines where the `s` line and the `v` lines stand.
fn wrong_order(random: &mut Random, lines: &mut Vec<String>) -> &'static str {
    match random.below(4) {
        0 => {
            let first = lines.remove(0);
            lines.insert(random.between(1, lines.len()), first);
            "v before s"
        }
        1 => {
            lines.remove(0);
            "no s line"
        }
        2 => {
            lines[0] = random.pick(&OTHER_S_LINES).to_string();
            "another s line"
        }
        _ => {
            lines.truncate(1);
            "no v line"
        }
    }
}
