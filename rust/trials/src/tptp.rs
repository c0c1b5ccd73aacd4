//! Generated TPTP texts: clauses as tokens, texts around each limit, damage to tokens, and how tokens are written.

pub mod clauses;
pub mod damage;
pub mod layout;
pub mod limits;

/// A text before it is written: the tokens of each statement.
pub type Statements = Vec<Vec<String>>;
