//! Damage to texts: bytes, words, lines and counts.

use crate::random::Random;

/// Bytes that mean something in a text, and some that never do.
const BYTES: &[u8] = b"\n\n  ==//+-ABHIaz_09123\r\t\0\xff";

/// The text after one to three damages.
pub fn damaged(random: &mut Random, text: &[u8]) -> Vec<u8> {
    let mut text = text.to_vec();
    for _ in 0..random.between(1, 3).min(random.between(1, 3)) {
        damage(random, &mut text);
    }
    text
}

/// The text after one to three damages to its bytes and lines, with these bytes.
pub fn damaged_bytes(random: &mut Random, text: &[u8], bytes: &[u8]) -> Vec<u8> {
    let mut text = text.to_vec();
    for _ in 0..random.between(1, 3).min(random.between(1, 3)) {
        match random.below(7) {
            0 | 1 => change_byte(random, &mut text, bytes),
            2 => insert_byte(random, &mut text, bytes),
            3 => remove_byte(random, &mut text),
            4 => shorten(random, &mut text),
            5 => change_lines(random, &mut text),
            _ => swap_bytes(random, &mut text),
        }
    }
    text
}

fn damage(random: &mut Random, text: &mut Vec<u8>) {
    match random.below(10) {
        0 => change_byte(random, text, BYTES),
        1 => insert_byte(random, text, BYTES),
        2 => remove_byte(random, text),
        3 => shorten(random, text),
        4 => text.extend((0..random.between(1, 9)).map(|_| *random.pick(BYTES))),
        5 => change_lines(random, text),
        6 => change_number(random, text),
        7 => change_words(random, text),
        8 => join_lines(random, text),
        _ => swap_bytes(random, text),
    }
}

fn change_byte(random: &mut Random, text: &mut [u8], bytes: &[u8]) {
    if !text.is_empty() {
        let at = random.below(text.len());
        text[at] = if random.once_in(3) {
            random.number() as u8
        } else {
            *random.pick(bytes)
        };
    }
}

fn insert_byte(random: &mut Random, text: &mut Vec<u8>, bytes: &[u8]) {
    let at = random.between(0, text.len());
    text.insert(at, *random.pick(bytes));
}

fn remove_byte(random: &mut Random, text: &mut Vec<u8>) {
    if !text.is_empty() {
        text.remove(random.below(text.len()));
    }
}

fn swap_bytes(random: &mut Random, text: &mut [u8]) {
    if text.len() > 1 {
        let at = random.below(text.len() - 1);
        text.swap(at, at + 1);
    }
}

fn shorten(random: &mut Random, text: &mut Vec<u8>) {
    let by = if random.once_in(2) {
        random.between(0, 3)
    } else {
        random.between(0, text.len())
    };
    text.truncate(text.len().saturating_sub(by));
}

/// Leaves out, doubles or swaps lines.
fn change_lines(random: &mut Random, text: &mut Vec<u8>) {
    let mut lines: Vec<Vec<u8>> = text.split_inclusive(|&b| b == b'\n').map(<[u8]>::to_vec).collect();
    if lines.is_empty() {
        return;
    }
    let (at, other) = (random.below(lines.len()), random.below(lines.len()));
    match random.below(3) {
        0 => {
            lines.remove(at);
        }
        1 => lines.insert(at, lines[at].clone()),
        _ => lines.swap(at, other),
    }
    *text = lines.concat();
}

/// Puts another number where a digit stands.
fn change_number(random: &mut Random, text: &mut Vec<u8>) {
    let digits = places(text, |b| b.is_ascii_digit());
    if digits.is_empty() {
        return;
    }
    let at = *random.pick(&digits);
    let numbers: [&[u8]; 14] = [
        b"0", b"1", b"2", b"3", b"4", b"8", b"9", b"12", b"13", b"64", b"65", b"01", b"100", b"",
    ];
    text.splice(at..at + 1, random.pick(&numbers).iter().copied());
}

/// Puts another word of the text, or a word of the language, in the place of one.
fn change_words(random: &mut Random, text: &mut Vec<u8>) {
    let ends = places(text, |b| b == b' ' || b == b'\n' || b == b'=');
    if ends.len() < 2 {
        return;
    }
    let word = |i: usize| ends[i] + 1..ends[i + 1];
    let other = if random.once_in(2) {
        let words: [&[u8]; 10] = [b"+", b"-", b"=", b"A", b"H", b"I", b"", b"f", b"+ = A B", b"- = A B"];
        random.pick(&words).to_vec()
    } else {
        text[word(random.below(ends.len() - 1))].to_vec()
    };
    text.splice(word(random.below(ends.len() - 1)), other);
}

fn join_lines(random: &mut Random, text: &mut Vec<u8>) {
    let feeds = places(text, |b| b == b'\n');
    if !feeds.is_empty() {
        text.remove(*random.pick(&feeds));
    }
}

fn places(text: &[u8], wanted: impl Fn(u8) -> bool) -> Vec<usize> {
    (0..text.len()).filter(|&i| wanted(text[i])).collect()
}
