//! Damage to TPTP texts: to their tokens before they are written, and to their bytes.

use super::{layout, Statements};
use crate::damage;
use crate::random::Random;

/// Every token that is read, tokens of TPTP that are not, and pieces of tokens.
const TOKENS: [&str; 62] = [
    "(", ")", ",", ".", "|", "~", "=", "!=", "$false", "cnf", "a", "p", "f", "X", "Y", "7", "007", "=>", "~|", "~&",
    "<=", "<=>", "<~>", "==", "!", "!=>", "&", "?", ":", "[", "]", "@", "^", "-", "+", "*", "/", "1/2", "1/0", "007.5",
    "1.5", "1.", "1e5", "1E+5", "1e-5", "1e", "-1", "+1", "$true", "$fal", "$falsey", "$False", "$", "$$x", "'quoted'",
    "\"text\"", "_x", "fof", "include", "thf", "file(a)", "#",
];

/// Bytes that mean something in a TPTP text, and some that never do.
const BYTES: &[u8] = b"\n\n  (),.|~=!$%/*'\"<>&abXY_09e\r\t\0\xff";

/// The statements after one to three damages, written.
pub fn damaged(random: &mut Random, statements: &Statements) -> Vec<u8> {
    let mut statements = statements.clone();
    if random.once_in(2) {
        let text = layout::any(random, &statements);
        return damage::damaged_bytes(random, &text, BYTES);
    }
    for _ in 0..random.between(1, 3).min(random.between(1, 3)) {
        change_tokens(random, &mut statements);
    }
    layout::any(random, &statements)
}

fn change_tokens(random: &mut Random, statements: &mut Statements) {
    if statements.is_empty() {
        statements.push(Vec::new());
    }
    let statement = random.below(statements.len());
    let tokens = &mut statements[statement];
    let token = random.pick(&TOKENS).to_string();
    let at = random.between(0, tokens.len());
    match random.below(8) {
        0 | 1 => tokens.insert(at, token),
        2 => tokens.truncate(at),
        _ if at == tokens.len() => tokens.push(token),
        3 => tokens.insert(at, tokens[at].clone()),
        4 => {
            tokens.remove(at);
        }
        5 => {
            let other = random.below(tokens.len());
            tokens.swap(at, other);
        }
        _ => tokens[at] = token,
    }
}
