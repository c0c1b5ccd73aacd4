//! The programs as functions from standard input to standard output.

use crate::{explain, find, FindOptions, Reason, Refusal, Search, Symmetry, Terms};

const WORK: usize = 16_000;
const OUTPUT: usize = 24_902;

/// What the finder program prints for this input.
pub fn program(input: &[u8]) -> Vec<u8> {
    let mut work = vec![0; WORK];
    let mut out = vec![0; OUTPUT];
    let answer = read_input(input)
        .ok_or(crate::refused(Reason::BadSize))
        .and_then(|(low, high, options, sheet)| find(sheet, low, high, options, &mut work, &mut out));
    match answer {
        Ok(Search::Found { length, .. }) => {
            let mut text = b"answer=found\n".to_vec();
            text.extend_from_slice(&out[..length]);
            text
        }
        Ok(Search::None { settled, .. }) => {
            let mark = if settled { "yes" } else { "no" };
            format!("answer=none\nsettled={mark}\n").into_bytes()
        }
        Ok(Search::Stopped { size, .. }) => format!("answer=stopped\nsize={size}\n").into_bytes(),
        Err(refusal) => refusal_lines(refusal),
    }
}

/// What the explainer program prints for this input.
pub fn explainer(input: &[u8]) -> Vec<u8> {
    let (sheet, case) = input.split_at(start_of_case(input));
    match explain(sheet, case) {
        Ok(None) => b"answer=yes\n".to_vec(),
        Ok(Some(failure)) => {
            let choice = failure.choice().iter();
            let values: String = choice.map(|(letter, value)| format!("{letter}={value}\n")).collect();
            format!("answer=no\nclause={}\n{values}", failure.clause).into_bytes()
        }
        Err(refusal) => refusal_lines(refusal),
    }
}

fn refusal_lines(refusal: Refusal) -> Vec<u8> {
    let number = refusal.reason.number();
    let (line, column) = (refusal.line, refusal.column);
    format!("answer=refused\nreason={number}\nline={line}\ncolumn={column}\n").into_bytes()
}

/// Where the first line `case=1` with its LF starts; the input's end if there is none.
fn start_of_case(input: &[u8]) -> usize {
    let lines = input.split_inclusive(|&b| b == b'\n');
    lines.take_while(|&line| line != b"case=1\n").map(<[u8]>::len).sum()
}

/// What the first four lines say, and the sheet after them; nothing where one of the four is not as laid out.
fn read_input(input: &[u8]) -> Option<(u64, u64, FindOptions, &[u8])> {
    let (low, rest) = digit_line(input, b"low=")?;
    let (high, rest) = digit_line(rest, b"high=")?;
    let (symmetry, rest) = match rest.strip_prefix(b"sym=yes\n") {
        Some(rest) => (Symmetry::Reduced, rest),
        None => (Symmetry::Kept, rest.strip_prefix(b"sym=no\n")?),
    };
    let (allowance, sheet) = allowance_line(rest)?;
    let options = FindOptions {
        terms: Terms::AsWritten,
        symmetry,
        allowance,
    };
    Some((low, high, options, sheet))
}

/// The number of one to seven digits, without a leading zero, of the line `allow=`, and what follows the line.
fn allowance_line(text: &[u8]) -> Option<(u64, &[u8])> {
    let rest = text.strip_prefix(b"allow=")?;
    let end = rest.iter().position(|&b| b == b'\n')?;
    let (digits, rest) = (&rest[..end], &rest[end + 1..]);
    let is_number = (1..=7).contains(&digits.len()) && digits.iter().all(u8::is_ascii_digit);
    if !is_number || digits.len() > 1 && digits[0] == b'0' {
        return None;
    }
    let value = digits.iter().fold(0, |value, digit| 10 * value + (digit - b'0') as u64);
    Some((value, rest))
}

/// The digit of the line with this key, and what follows the line.
fn digit_line<'a>(text: &'a [u8], key: &[u8]) -> Option<(u64, &'a [u8])> {
    match text.strip_prefix(key)? {
        [digit @ b'0'..=b'9', b'\n', rest @ ..] => Some(((digit - b'0') as u64, rest)),
        _ => None,
    }
}
