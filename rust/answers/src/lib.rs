//! The answers of the operations: read, judge, explain, write, read back, setting, find, find plain, from TPTP,
//! from solver, merge, renumber, and least form.
//!
//! Each call answers a result or a [`Refusal`]. A refusal has the number that the specification gives it.

use std::fmt;

/// Why a call is refused.
#[derive(Clone, Copy, Debug, PartialEq, Eq, PartialOrd, Ord, Hash)]
#[repr(u32)]
pub enum Reason {
    /// 1: the sheet has over 16,384 bytes.
    SheetTooLong = 1,
    /// 2: a line of the sheet is not as laid out, is missing, or bytes follow the end.
    Layout = 2,
    /// 3: a count or an arity is over its limit.
    OverLimit = 3,
    /// 4: a name is badly formed or repeated.
    BadName = 4,
    /// 5: a word of a clause is unknown or empty.
    UnknownWord = 5,
    /// 6: the words are no clause.
    NotAClause = 6,
    /// 7: the clause has over 64 words, 16 literals or 10 variables.
    ClauseTooLarge = 7,
    /// 8: a size is not 1 to 8, or low is above high.
    BadSize = 8,
    /// 9: over 1,000,000 instances.
    TooManyInstances = 9,
    /// 10: the work area is too short.
    WorkTooShort = 10,
    /// 11: the output is too short.
    OutputTooShort = 11,
    /// 12: a line of the case is not as laid out.
    BadCase = 12,
    /// 13: the setting is not one byte, 0 or 1, for each propositional variable.
    BadSetting = 13,
    /// 14: a function cell with no result or several.
    NotOneResult = 14,
    /// 15: text outside the part of TPTP that is read.
    NotTptp = 15,
    /// 16: a symbol with two arities, or that is a function and a predicate.
    SymbolClash = 16,
    /// 17: what is read does not go into a sheet: a name, a ninth variable, or a limit.
    BeyondSheets = 17,
    /// 18: a solver's answer is not as laid out, or a propositional variable is missing, doubled or above the last one.
    BadAnswer = 18,
    /// 19: the case of a solver's answer is no model of the sheet.
    NoModel = 19,
    /// 20: a case of size high has over 64 cells, the most that the plain search takes.
    TooManyCells = 20,
    /// 21: with [`Terms::Named`], over 32 helper constants.
    TooManyHelpers = 21,
    /// 22: two sheets to merge declare a name with different kinds or arities.
    NamesDiffer = 22,
    /// 23: the merged sheet has over 12 functions, 12 predicates, 64 clauses or 16,384 bytes.
    MergeTooLarge = 23,
    /// 24: the allowance is over [`FindOptions::LARGEST_ALLOWANCE`].
    AllowanceTooLarge = 24,
    /// 25: the list is no rearrangement of the numbers from 1 to the case's size.
    BadList = 25,
}

impl Reason {
    /// Every reason, in order of its number.
    pub const ALL: [Reason; 25] = [
        Reason::SheetTooLong,
        Reason::Layout,
        Reason::OverLimit,
        Reason::BadName,
        Reason::UnknownWord,
        Reason::NotAClause,
        Reason::ClauseTooLarge,
        Reason::BadSize,
        Reason::TooManyInstances,
        Reason::WorkTooShort,
        Reason::OutputTooShort,
        Reason::BadCase,
        Reason::BadSetting,
        Reason::NotOneResult,
        Reason::NotTptp,
        Reason::SymbolClash,
        Reason::BeyondSheets,
        Reason::BadAnswer,
        Reason::NoModel,
        Reason::TooManyCells,
        Reason::TooManyHelpers,
        Reason::NamesDiffer,
        Reason::MergeTooLarge,
        Reason::AllowanceTooLarge,
        Reason::BadList,
    ];

    /// The specification's number of this reason.
    pub fn number(self) -> u32 {
        self as u32
    }

    /// The reason with this number.
    pub fn from_number(number: u32) -> Option<Reason> {
        Reason::ALL.into_iter().find(|r| r.number() == number)
    }
}

impl fmt::Display for Reason {
    fn fmt(&self, f: &mut fmt::Formatter<'_>) -> fmt::Result {
        f.write_str(match self {
            Reason::SheetTooLong => "the sheet has more than 16,384 bytes",
            Reason::Layout => {
                "this line of the sheet is missing or not as laid out, or the sheet goes on after its end"
            }
            Reason::OverLimit => {
                "over the limit (12 functions, 12 predicates, 64 clauses, arity 3)"
            }
            Reason::BadName => {
                "this name is declared twice or is not 1 to 12 lower-case letters, digits and underscores, a letter first"
            }
            Reason::UnknownWord => {
                "a word of this clause is empty or is not +, -, =, a letter A to H or a declared name"
            }
            Reason::NotAClause => "the words of this line do not make up a clause",
            Reason::ClauseTooLarge => {
                "this clause has over 64 words, 16 literals or, once flattened, 10 variables"
            }
            Reason::BadSize => "a size must be 1 to 8, and low must not be above high",
            Reason::TooManyInstances => {
                "at this size the clauses have more than 1,000,000 instances"
            }
            Reason::WorkTooShort => "the work area is too short",
            Reason::OutputTooShort => "the output is too short",
            Reason::BadCase => {
                "this line of the case is missing or not as laid out, or the case goes on after its end"
            }
            Reason::BadSetting => {
                "the setting is not one 0 or 1 for each propositional variable"
            }
            Reason::NotOneResult => "the setting gives a function no result or several for some arguments",
            Reason::NotTptp => "this does not belong to the TPTP clauses that are read, or the text ends too early",
            Reason::SymbolClash => "this symbol stands earlier with another number of arguments, or as the other kind",
            Reason::BeyondSheets => {
                "this does not go into a sheet (12 functions and 12 predicates with names of 1 to 12 lower-case letters, \
                 digits and underscores and at most 3 arguments; 64 clauses of at most 8 variables, 16 literals, 64 \
                 words and, once flattened, 10 variables; 16,384 bytes)"
            }
            Reason::BadAnswer => {
                "the solver's answer is not one s line and then v lines as laid out (one space between numbers, 0 last of \
                 all, a line feed after each line), or does not state each propositional variable of the sheet at this \
                 size once"
            }
            Reason::NoModel => "the solver's answer stands for a case that is no model of the sheet",
            Reason::TooManyCells => {
                "a case of size high has more than 64 cells, and the plain search takes at most 64: take a lower high, or \
                 find without plain"
            }
            Reason::TooManyHelpers => {
                "the sheet has more than 32 different terms to name (terms without variables that are no constants and \
                 stand inside no other), and at most 32 are named: declare constants for some of them, or leave terms as \
                 they are written"
            }
            Reason::NamesDiffer => "both sheets declare a name, with different kinds or numbers of arguments",
            Reason::MergeTooLarge => {
                "the merged sheet would be over the limit (12 functions, 12 predicates, 64 clauses, 16,384 bytes)"
            }
            Reason::AllowanceTooLarge => "at most 1,000,000 choices can be allowed",
            Reason::BadList => "the list does not have each number from 1 to the case's size once",
        })
    }
}

/// A refused call: it has changed no lent byte and no lent number.
#[derive(Clone, Copy, Debug, PartialEq, Eq)]
pub struct Refusal {
    pub reason: Reason,
    /// The faulty line, from 1 (of the case for [`Reason::BadCase`], of the TPTP text for 15 to 17, else of the sheet);
    /// 0 where none is named.
    pub line: u64,
    /// The faulty byte of that line, from 1, or one past the line's end; 0 where no line is named.
    pub column: u64,
    /// The length that would have done, for [`Reason::WorkTooShort`] and [`Reason::OutputTooShort`]; else 0.
    pub needed: u64,
}

impl fmt::Display for Refusal {
    fn fmt(&self, f: &mut fmt::Formatter<'_>) -> fmt::Result {
        write!(f, "refused {}", self.reason.number())?;
        if self.line > 0 {
            write!(f, ", line {}, column {}", self.line, self.column)?;
        }
        write!(f, ": {}", self.reason)?;
        match self.reason {
            Reason::WorkTooShort => write!(f, ", {} numbers are needed", self.needed),
            Reason::OutputTooShort => write!(f, ", {} bytes are needed", self.needed),
            _ => Ok(()),
        }
    }
}

impl std::error::Error for Refusal {}

/// One of the two sheets that are merged.
#[derive(Clone, Copy, Debug, PartialEq, Eq)]
pub enum WhichSheet {
    First,
    Second,
}

impl WhichSheet {
    /// The specification's number of this sheet.
    pub fn number(self) -> u32 {
        match self {
            WhichSheet::First => 1,
            WhichSheet::Second => 2,
        }
    }
}

/// A refused merge: it has changed no lent byte.
#[derive(Clone, Copy, Debug, PartialEq, Eq)]
pub struct MergeRefusal {
    pub refusal: Refusal,
    /// The sheet at fault, for 1 to 7; nothing for the others, which are about the two together.
    pub sheet: Option<WhichSheet>,
}

impl fmt::Display for MergeRefusal {
    fn fmt(&self, f: &mut fmt::Formatter<'_>) -> fmt::Result {
        match self.sheet {
            Some(WhichSheet::First) => write!(f, "first sheet: ")?,
            Some(WhichSheet::Second) => write!(f, "second sheet: ")?,
            None => {}
        }
        self.refusal.fmt(f)
    }
}

impl std::error::Error for MergeRefusal {}

/// What becomes of a sheet's fixed terms: those without variables that are no constants.
///
/// Where neither call is refused or stopped, a search with the same [`Symmetry`] answers the same with both, but for the
/// number of choices.
#[derive(Clone, Copy, Debug, PartialEq, Eq, Default)]
pub enum Terms {
    /// They stay as they are written.
    #[default]
    AsWritten,
    /// Each outermost one is named: a helper constant stands in its place, equal terms share one, and one clause more for
    /// each helper, in front of the sheet's, says that it equals its term. Helpers have cells and propositional variables
    /// after those of all predicates, and are not shown in a case. The limits of a clause are those of the clauses with
    /// the names put in and of the helpers' own.
    Named,
}

/// What becomes of the renumberings of a case, its twins: whichever of them is a model, all are.
#[derive(Clone, Copy, Debug, PartialEq, Eq)]
pub enum Symmetry {
    /// No clause tells them apart.
    Kept,
    /// Constant clauses are added, which few of them obey: of the declared constants in order, each takes a value up to its
    /// place, and a value d above 1 only if an earlier constant has d - 1. Every model has a renumbering that obeys them, so
    /// that a size has a model exactly if one obeys them. They count in the number of instances and of work.
    Reduced,
}

/// Which clauses Write leaves of a sheet; unless said otherwise, those of terms as they are written, and no constant clauses.
#[derive(Clone, Copy, Debug, PartialEq, Eq)]
pub struct WriteOptions {
    pub terms: Terms,
    pub symmetry: Symmetry,
}

impl Default for WriteOptions {
    fn default() -> WriteOptions {
        WriteOptions {
            terms: Terms::default(),
            symmetry: Symmetry::Kept,
        }
    }
}

/// How Find searches a sheet; unless said otherwise, with terms as they are written, with the constant clauses, and with the
/// largest allowance.
///
/// With [`Symmetry::Kept`] the model found is the least one of its size, with [`Symmetry::Reduced`] the least of those that
/// obey the constant clauses. None, the smallest size and, where all constants are declared before other functions, the case
/// are the same where neither search is refused or stopped.
#[derive(Clone, Copy, Debug, PartialEq, Eq)]
pub struct FindOptions {
    pub terms: Terms,
    pub symmetry: Symmetry,
    /// How many choices the search may make over all sizes, 0 to [`FindOptions::LARGEST_ALLOWANCE`]. It is
    /// [`Search::Stopped`] exactly if it needs one more; a larger allowance that is not refused changes no other answer.
    ///
    /// A choice is made when a propositional variable is unset and no clause is wholly false or forces a variable (one literal
    /// of it is unset, the others are false). It sets the lowest unset variable: to yes for a function, to no for a predicate.
    /// Where that fails, the other value is tried, which is no choice.
    pub allowance: u64,
}

impl FindOptions {
    /// The most choices that a search may be allowed.
    pub const LARGEST_ALLOWANCE: u64 = 1_000_000;
}

impl Default for FindOptions {
    fn default() -> FindOptions {
        FindOptions {
            terms: Terms::default(),
            symmetry: Symmetry::Reduced,
            allowance: FindOptions::LARGEST_ALLOWANCE,
        }
    }
}

/// How many functions, predicates and clauses an accepted sheet has.
#[derive(Clone, Copy, Debug, PartialEq, Eq)]
pub struct Counts {
    pub functions: u64,
    pub predicates: u64,
    pub clauses: u64,
}

/// Why a case is no model: the first clause that fails, and the first choice of values under which it does.
#[derive(Clone, Copy, Debug, PartialEq, Eq)]
pub struct FirstFailure {
    /// Which clause of the sheet, counted from 1.
    pub clause: u64,
    letters: usize,
    choice: [(char, u8); FirstFailure::MOST_LETTERS],
}

impl FirstFailure {
    /// A clause has the letters A to H at most.
    const MOST_LETTERS: usize = 8;

    /// The failure of a clause under a choice: its letters, each with its value.
    pub fn new(clause: u64, choice: impl IntoIterator<Item = (char, u8)>) -> FirstFailure {
        let mut failure = FirstFailure {
            clause,
            letters: 0,
            choice: Default::default(),
        };
        for pair in choice {
            failure.choice[failure.letters] = pair;
            failure.letters += 1;
        }
        failure
    }

    /// The clause's own letters in order of first appearance, each with the element, from 1, that it stands for.
    pub fn choice(&self) -> &[(char, u8)] {
        &self.choice[..self.letters]
    }
}

/// What a search over sizes came to, and the choices that it made over all sizes so far. The plain search makes none, and is
/// never stopped.
#[derive(Clone, Copy, Debug, PartialEq, Eq)]
pub enum Search {
    /// The least model at the smallest size, of those that [`FindOptions`] speaks of, stands in the output's first `length`
    /// bytes.
    Found { size: u64, length: usize, choices: u64 },
    /// No case of a searched size is a model. Where it is `settled`, no interpretation of any size is one, above 8
    /// included: the search began at size 1, no function has arguments, and high is at least the number of constants.
    None { settled: bool, choices: u64 },
    /// At this size one more choice is needed than [`FindOptions::allowance`] has. No case of a smaller searched size is a
    /// model; of this size and larger ones nothing is known.
    Stopped { size: u64, choices: u64 },
}

impl Search {
    /// The choices that it made.
    pub fn choices(self) -> u64 {
        match self {
            Search::Found { choices, .. } | Search::None { choices, .. } | Search::Stopped { choices, .. } => choices,
        }
    }

    /// The same with so many choices.
    pub fn with_choices(self, choices: u64) -> Search {
        match self {
            Search::Found { size, length, .. } => Search::Found { size, length, choices },
            Search::None { settled, .. } => Search::None { settled, choices },
            Search::Stopped { size, .. } => Search::Stopped { size, choices },
        }
    }
}

/// What a solver's answer comes to.
#[derive(Clone, Copy, Debug, PartialEq, Eq)]
pub enum SolverAnswer {
    /// The solver's case, a model of the sheet, stands in the output's first `length` bytes.
    Case { length: usize },
    /// The solver says that there is no model of the size. Nothing here has checked that: it is not [`Search::None`].
    ClaimedNone,
}

/// A result or a refusal.
pub type Answer<T> = Result<T, Refusal>;

/// The operations of one implementation, to run the same work on several.
#[allow(clippy::type_complexity)]
#[derive(Clone, Copy)]
pub struct Operations {
    pub name: &'static str,
    pub read: fn(&[u8]) -> Answer<Counts>,
    pub judge: fn(&[u8], &[u8]) -> Answer<bool>,
    pub explain: fn(&[u8], &[u8]) -> Answer<Option<FirstFailure>>,
    pub write: fn(&[u8], u64, WriteOptions, &mut [u8]) -> Answer<usize>,
    pub read_back: fn(&[u8], u64, Terms, &[u8], &mut [u8]) -> Answer<usize>,
    pub setting: fn(&[u8], &[u8], &mut [u8]) -> Answer<usize>,
    pub find: fn(&[u8], u64, u64, FindOptions, &mut [u32], &mut [u8]) -> Answer<Search>,
    pub find_plain: fn(&[u8], u64, u64, &mut [u8]) -> Answer<Search>,
    pub from_tptp: fn(&[u8], &mut [u8]) -> Answer<usize>,
    pub from_solver: fn(&[u8], u64, &[u8], &mut [u8]) -> Answer<SolverAnswer>,
    pub merge: fn(&[u8], &[u8], &mut [u8]) -> Result<usize, MergeRefusal>,
    pub renumber: fn(&[u8], &[u8], &[u8], &mut [u8]) -> Answer<usize>,
    pub least_form: fn(&[u8], &[u8], &mut [u8]) -> Answer<usize>,
}

#[cfg(test)]
mod tests {
    use super::*;

    #[test]
    fn numbers_run_from_one_without_a_gap() {
        for (i, reason) in Reason::ALL.into_iter().enumerate() {
            assert_eq!(reason.number() as usize, i + 1);
            assert_eq!(Reason::from_number(reason.number()), Some(reason));
        }
        assert_eq!(Reason::from_number(0), None);
        assert_eq!(Reason::from_number(26), None);
    }

    #[test]
    fn find_uses_constant_clauses_and_write_adds_none() {
        assert_eq!(FindOptions::default().symmetry, Symmetry::Reduced);
        assert_eq!(WriteOptions::default().symmetry, Symmetry::Kept);
        assert_eq!(FindOptions::default().terms, Terms::AsWritten);
        assert_eq!(WriteOptions::default().terms, Terms::AsWritten);
    }

    #[test]
    fn find_is_allowed_the_most_choices() {
        assert_eq!(FindOptions::default().allowance, 1_000_000);
    }

    #[test]
    fn every_search_has_its_choices() {
        for search in [
            Search::Found {
                size: 2,
                length: 22,
                choices: 7,
            },
            Search::None {
                settled: true,
                choices: 7,
            },
            Search::Stopped { size: 2, choices: 7 },
        ] {
            assert_eq!(search.choices(), 7);
            assert_eq!(search.with_choices(8).choices(), 8);
            assert_eq!(search.with_choices(8).with_choices(7), search);
        }
    }

    #[test]
    fn a_choice_keeps_its_order() {
        assert_eq!(FirstFailure::new(3, []).choice(), []);
        let choice = [('C', 2), ('A', 8), ('B', 1)];
        assert_eq!(FirstFailure::new(3, choice).choice(), choice);
        let whole = "HGFEDCBA".chars().zip(1..);
        assert_eq!(FirstFailure::new(64, whole).choice()[7], ('A', 8));
    }

    #[test]
    fn a_refusal_is_told_in_words() {
        let words = Refusal {
            reason: Reason::NotAClause,
            line: 7,
            column: 12,
            needed: 0,
        };
        assert_eq!(
            words.to_string(),
            "refused 6, line 7, column 12: the words of this line do not make up a clause"
        );
        let short = Refusal {
            reason: Reason::OutputTooShort,
            line: 0,
            column: 0,
            needed: 22,
        };
        assert_eq!(
            short.to_string(),
            "refused 11: the output is too short, 22 bytes are needed"
        );
    }

    #[test]
    fn a_refused_merge_says_which_sheet() {
        let too_long = Refusal {
            reason: Reason::SheetTooLong,
            line: 0,
            column: 0,
            needed: 0,
        };
        let told = |sheet| {
            let refusal = too_long;
            MergeRefusal { refusal, sheet }.to_string()
        };
        let words = "refused 1: the sheet has more than 16,384 bytes";
        assert_eq!(told(Some(WhichSheet::First)), format!("first sheet: {words}"));
        assert_eq!(told(Some(WhichSheet::Second)), format!("second sheet: {words}"));
        assert_eq!(told(None), words);
    }
}
