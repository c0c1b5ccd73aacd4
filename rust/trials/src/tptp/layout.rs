//! Tokens written as text: as people write them, or with blanks and comments of every kind between them.

use super::Statements;
use crate::random::Random;

/// Blanks and comments, also of bytes that stand nowhere else.
const GAPS: [&[u8]; 20] = [
    b"\n",
    b"\t",
    b"\r\n",
    b"  ",
    b"\r",
    b"%\n",
    b"%\r\n",
    b"% cnf(a, axiom, p).\n",
    b"%/*\n",
    b"%*/\n",
    b"%\xff\x00'\n",
    b"/**/",
    b"/***/",
    b"/*/ */",
    b"/*/*/",
    b"/* * / **/",
    b"/* ' \" % /* \n */",
    b"/*\x00\xff*/",
    b"/*a*//*b*/",
    b"/*\n\n*/\n",
];

/// What may stand at a text's end.
const ENDS: [&[u8]; 6] = [b"", b"", b"\n", b"% the end", b"/* the end */", b"\n\n%"];

/// Written as people do.
pub fn ordinary(statements: &Statements) -> Vec<u8> {
    let mut text = String::new();
    for statement in statements {
        for token in statement {
            text += &match token.as_str() {
                "," => ", ".to_string(),
                "|" | "=" | "!=" => format!(" {token} "),
                "." => ".\n".to_string(),
                other => other.to_string(),
            };
        }
    }
    text.into_bytes()
}

/// Written with anything between the tokens.
pub fn free(random: &mut Random, statements: &Statements) -> Vec<u8> {
    let mut text = gap(random);
    for statement in statements {
        for token in statement {
            text.extend(token.bytes());
            text.extend(gap(random));
        }
        if random.once_in(2) {
            text.push(b'\n');
        }
    }
    text.extend(*random.pick(&ENDS));
    text
}

/// One of the two.
pub fn any(random: &mut Random, statements: &Statements) -> Vec<u8> {
    if random.once_in(3) {
        ordinary(statements)
    } else {
        free(random, statements)
    }
}

fn gap(random: &mut Random) -> Vec<u8> {
    match random.below(12) {
        0..=7 => Vec::new(),
        8..=9 => b" ".to_vec(),
        10 => random.pick(&GAPS).to_vec(),
        _ => [*random.pick(&GAPS), *random.pick(&GAPS)].concat(),
    }
}
