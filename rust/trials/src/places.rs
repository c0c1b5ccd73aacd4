//! What the line and column of a refusal point at.

/// How many bytes of the text stand before a line and column, both counted from 1.
pub fn offset(text: &[u8], line: u64, column: u64) -> usize {
    let lines = text.split_inclusive(|&b| b == b'\n').take(line as usize - 1);
    lines.map(<[u8]>::len).sum::<usize>() + column as usize - 1
}

/// The text with `^` taken out, and the line and column of the byte that stood after it.
pub fn marked(text: &str) -> (String, u64, u64) {
    let (before, after) = text.split_once('^').expect("a place is marked");
    let line = 1 + before.matches('\n').count() as u64;
    let column = 1 + (before.len() - before.rfind('\n').map_or(0, |feed| feed + 1)) as u64;
    (before.to_string() + after, line, column)
}

/// The number of a refusal of a sheet or a case, and what its line and column point at.
pub fn pointed_at(text: &[u8], number: u32, line: u64, column: u64) -> String {
    let at = offset(text, line, column);
    let before_line = at + 1 - column as usize;
    let key_is = |key: &[u8]| text[before_line..].starts_with(key);
    let what = match (number, text.get(at)) {
        (3, _) if key_is(b"fun=") || key_is(b"pred=") => "an arity",
        (3, _) => "a count",
        (4, _) => "a name",
        (5, Some(b' ' | b'\n')) => "an empty word",
        (7, _) => over_limits(&text[before_line..], column),
        (_, None) => "the text's end",
        (_, Some(b'\n')) => "a line's end",
        (5 | 6, _) => "a word",
        _ => "a byte",
    };
    format!("{number} at {what}")
}

/// Which limit of a clause is named, and whether the other one is passed as well. All words of the line are known, so that
/// `+` and `-` stand for signs alone.
fn over_limits(from_line: &[u8], column: u64) -> &'static str {
    let line = from_line.split(|&b| b == b'\n').next().unwrap_or_default();
    let words = |line: &[u8]| 1 + line.iter().filter(|&&b| b == b' ').count();
    let signs = line.iter().filter(|&&b| b == b'+' || b == b'-').count();
    let at_the_65th_word = words(&line[..column as usize - 1]) == 65;
    match (words(line) > 64, signs > 16) {
        (true, true) if at_the_65th_word => "the 65th word, with 17 literals",
        (true, true) => "the 17th sign, with 65 words",
        (true, false) => "the 65th word",
        (false, true) => "the 17th sign",
        (false, false) => "its first byte, for variables",
    }
}
