//! The tokens of a TPTP text, with blanks and comments between them.

#[derive(Clone, Copy, Debug, PartialEq, Eq)]
pub enum Kind {
    LowerWord,
    UpperWord,
    Digits,
    /// `$false`
    False,
    Open,
    Close,
    Comma,
    Stop,
    Or,
    Not,
    Equal,
    Unequal,
    /// A token that the clauses read here never have, or a comment without an end.
    Foreign,
}

#[derive(Clone, Copy, Debug)]
pub struct Token<'a> {
    pub kind: Kind,
    /// Where it stands in the text.
    pub place: usize,
    pub text: &'a [u8],
}

/// Hands out the tokens in order. A comment without an end is a foreign token at the text's end.
pub struct Tokens<'a> {
    text: &'a [u8],
    at: usize,
}

impl<'a> Tokens<'a> {
    pub fn new(text: &'a [u8]) -> Self {
        Tokens { text, at: 0 }
    }

    /// Passes over blanks and comments; false where a comment has no end.
    fn pass_blanks(&mut self) -> bool {
        loop {
            self.at += match &self.text[self.at..] {
                [b' ' | b'\t' | b'\r' | b'\n', ..] => 1,
                [b'%', rest @ ..] => 1 + rest.iter().position(|&b| b == b'\n').unwrap_or(rest.len()),
                [b'/', b'*', rest @ ..] => match rest.windows(2).position(|pair| pair == b"*/") {
                    Some(length) => 2 + length + 2,
                    None => {
                        self.at = self.text.len();
                        return false;
                    }
                },
                _ => return true,
            };
        }
    }
}

impl<'a> Iterator for Tokens<'a> {
    type Item = Token<'a>;

    fn next(&mut self) -> Option<Token<'a>> {
        let closed = self.pass_blanks();
        let rest = &self.text[self.at..];
        let (kind, length) = match rest {
            [] if closed => return None,
            [] => (Kind::Foreign, 0),
            _ => first_token(rest),
        };
        let place = self.at;
        self.at += length;
        Some(Token {
            kind,
            place,
            text: &rest[..length],
        })
    }
}

/// The kind and the length of the token at the front of a text that is not empty.
fn first_token(text: &[u8]) -> (Kind, usize) {
    match text {
        [b'a'..=b'z', ..] => (Kind::LowerWord, word_length(text)),
        [b'A'..=b'Z', ..] => (Kind::UpperWord, word_length(text)),
        [b'0'..=b'9', ..] => number(text),
        [b'$', rest @ ..] => {
            let length = word_length(rest);
            let is_false = &rest[..length] == b"false";
            (if is_false { Kind::False } else { Kind::Foreign }, 1 + length)
        }
        [b'!', b'=', ..] => (Kind::Unequal, 2),
        // longer tokens of TPTP that begin like one of ours
        [b'=', b'>', ..] | [b'~', b'|' | b'&', ..] => (Kind::Foreign, 2),
        [b'=', ..] => (Kind::Equal, 1),
        [b'~', ..] => (Kind::Not, 1),
        [b'|', ..] => (Kind::Or, 1),
        [b'(', ..] => (Kind::Open, 1),
        [b')', ..] => (Kind::Close, 1),
        [b',', ..] => (Kind::Comma, 1),
        [b'.', ..] => (Kind::Stop, 1),
        _ => (Kind::Foreign, 1),
    }
}

/// Letters, digits and underscores from the front.
fn word_length(text: &[u8]) -> usize {
    let other = |b: &u8| !b.is_ascii_alphanumeric() && *b != b'_';
    text.iter().position(other).unwrap_or(text.len())
}

/// Digits; with a fraction, an exponent or a denominator they begin a foreign token.
fn number(text: &[u8]) -> (Kind, usize) {
    let length = text.iter().position(|b| !b.is_ascii_digit()).unwrap_or(text.len());
    let goes_on = matches!(
        &text[length..],
        [b'.', b'0'..=b'9', ..]
            | [b'e' | b'E', b'0'..=b'9', ..]
            | [b'e' | b'E', b'+' | b'-', b'0'..=b'9', ..]
            | [b'/', b'1'..=b'9', ..]
    );
    (if goes_on { Kind::Foreign } else { Kind::Digits }, length)
}
