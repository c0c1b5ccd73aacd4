//! Named terms for people: what to do where a limit of a clause or of helpers is in the way.

use crate::report::{Failure, File};
use nesskettle::{Reason, Refusal, Terms};

/// Where terms are named, what is counted, and how to come below the limits.
const COUNTED: &str = "with --named this is counted with the names put in, and for the clause + = NAME TERM of each term that \
                       first stands on this line;\n  a constant of your own for a part of a large term helps: fun=c/0 and \
                       clause=+ = c PART";

/// A refusal of a call that takes terms in this way, in words.
///
/// `taken` asks the library whether the call is taken with terms in another way: nothing where it is not, else up to where.
pub fn refused(sheet: &File, refusal: Refusal, terms: Terms, taken: impl Fn(Terms) -> Option<String>) -> Failure {
    let failure = sheet.refused(refusal);
    let without = |failure: Failure| match taken(Terms::AsWritten) {
        Some(limit) => failure.with(&format!("without --named this sheet is taken{limit}")),
        None => failure,
    };
    match (refusal.reason, terms) {
        (Reason::ClauseTooLarge, Terms::AsWritten) => match taken(Terms::Named) {
            Some(limit) => failure.with(&format!(
                "--named takes this sheet{limit}: it names the terms without variables, and they count by their names alone"
            )),
            None => failure,
        },
        (Reason::ClauseTooLarge, Terms::Named) => without(failure.with(COUNTED)),
        (Reason::TooManyHelpers, _) => without(failure),
        _ => failure,
    }
}

/// Is the call taken, given room? Then without a limit of its own.
pub fn without_limit<T>(answer: Result<T, Refusal>) -> Option<String> {
    let for_room = |refusal: Refusal| refusal.reason == Reason::OutputTooShort;
    answer.map_or_else(for_room, |_| true).then(String::new)
}
