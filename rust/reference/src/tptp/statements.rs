//! Statements `cnf(name, role, clause).`, and where a text is none (15).

use super::tokens::{Kind, Token, Tokens};
use super::Fault;
use crate::Reason;

/// A whole statement. Its name and its role are forgotten.
pub struct Statement<'a> {
    /// Where its `cnf` stands.
    pub start: usize,
    pub literals: Vec<Literal<'a>>,
    /// Where its full stop stands.
    pub stop: usize,
}

/// A literal: an equality of two terms, or an atom of one predicate.
pub struct Literal<'a> {
    pub positive: bool,
    pub is_equality: bool,
    /// The names in the order of the text, so that each stands before its arguments.
    pub names: Vec<Name<'a>>,
}

/// A variable, or a symbol and how many arguments it has here.
pub struct Name<'a> {
    pub text: &'a [u8],
    pub place: usize,
    pub is_variable: bool,
    pub arguments: usize,
}

/// A text that is read statement by statement, one token ahead.
pub struct Statements<'a> {
    tokens: Tokens<'a>,
    ahead: Option<Token<'a>>,
    end: usize,
}

impl<'a> Statements<'a> {
    pub fn new(text: &'a [u8]) -> Self {
        let mut tokens = Tokens::new(text);
        Statements {
            ahead: tokens.next(),
            tokens,
            end: text.len(),
        }
    }

    /// The next statement; none where the text has no more tokens.
    pub fn next(&mut self) -> Result<Option<Statement<'a>>, Fault> {
        let Some(first) = self.ahead else {
            return Ok(None);
        };
        if first.text != b"cnf" {
            return Err(self.outside());
        }
        self.step();
        self.take(Kind::Open)?;
        if !self.pass(Kind::Digits) {
            self.take(Kind::LowerWord)?;
        }
        self.take(Kind::Comma)?;
        self.take(Kind::LowerWord)?;
        self.take(Kind::Comma)?;
        let literals = self.clause()?;
        self.take(Kind::Close)?;
        let stop = self.take(Kind::Stop)?;
        Ok(Some(Statement {
            start: first.place,
            literals,
            stop: stop.place,
        }))
    }

    fn clause(&mut self) -> Result<Vec<Literal<'a>>, Fault> {
        let enclosed = self.pass(Kind::Open);
        let mut literals = Vec::new();
        loop {
            if !self.pass(Kind::False) {
                literals.push(self.literal()?);
            }
            if !self.pass(Kind::Or) {
                break;
            }
        }
        if enclosed {
            self.take(Kind::Close)?;
        }
        Ok(literals)
    }

    fn literal(&mut self) -> Result<Literal<'a>, Fault> {
        let negated = self.pass(Kind::Not);
        let mut names = Vec::new();
        self.term(&mut names)?;
        let unequal = !negated && self.pass(Kind::Unequal);
        let is_equality = unequal || self.pass(Kind::Equal);
        if is_equality {
            self.term(&mut names)?;
        } else if names[0].is_variable {
            return Err(self.outside());
        }
        Ok(Literal {
            positive: !negated && !unequal,
            is_equality,
            names,
        })
    }

    /// A variable, or a symbol with its arguments. These may nest thousands deep: the symbols whose arguments are being
    /// read stand in a list, the innermost last.
    fn term(&mut self, names: &mut Vec<Name<'a>>) -> Result<(), Fault> {
        let mut around: Vec<usize> = Vec::new();
        loop {
            let name = self.name()?;
            let has_arguments = !name.is_variable && self.pass(Kind::Open);
            names.push(name);
            if has_arguments {
                around.push(names.len() - 1);
                continue;
            }
            // a term ends here, and with it those of which it is the last argument
            loop {
                let Some(&symbol) = around.last() else {
                    return Ok(());
                };
                names[symbol].arguments += 1;
                if self.pass(Kind::Comma) {
                    break;
                }
                self.take(Kind::Close)?;
                around.pop();
            }
        }
    }

    fn name(&mut self) -> Result<Name<'a>, Fault> {
        let is_variable = self.ahead.is_some_and(|token| token.kind == Kind::UpperWord);
        let token = self.take(if is_variable { Kind::UpperWord } else { Kind::LowerWord })?;
        Ok(Name {
            text: token.text,
            place: token.place,
            is_variable,
            arguments: 0,
        })
    }

    /// Passes over the next token if it is of this kind.
    fn pass(&mut self, kind: Kind) -> bool {
        let is_there = self.ahead.is_some_and(|token| token.kind == kind);
        if is_there {
            self.step();
        }
        is_there
    }

    /// The next token, which must be of this kind.
    fn take(&mut self, kind: Kind) -> Result<Token<'a>, Fault> {
        match self.ahead {
            Some(token) if token.kind == kind => {
                self.step();
                Ok(token)
            }
            _ => Err(self.outside()),
        }
    }

    fn step(&mut self) {
        self.ahead = self.tokens.next();
    }

    /// 15 at the next token, or at the text's end where more is missing.
    fn outside(&self) -> Fault {
        Fault {
            reason: Reason::NotTptp,
            place: self.ahead.map_or(self.end, |token| token.place),
        }
    }
}
