//! The command line.

use crate::find::Layout;
use crate::report::Failure;
use crate::room::Engine;
use nesskettle::{FindOptions, Symmetry, Terms, WriteOptions};

pub const HELP: &str = "\
nesskettle: a finite model finder. Every answer is the proved library's.

  nesskettle find SHEET [--low N] [--high N] [--named or --plain] [--no-symmetry]
                        [--allow N] [--tables or --szs]
      the least model at the smallest size from low to high (1 and 8 if not given), of
      those whose elements are numbered as said below: prints answer=found and the
      case, or answer=none and settled=yes (there is no model of any size) or
      settled=no (none of the sizes that were searched), or answer=stopped and the
      size at which more choices are needed than are allowed
  nesskettle judge SHEET CASE
      is the case a model of the sheet? prints yes or no
  nesskettle explain SHEET CASE
      why is the case no model? prints answer=no, the first clause that fails, its
      letters with the first choice of values under which it does, and what its
      terms and literals come to; or answer=yes
  nesskettle clauses SHEET --size N [--named] [--symmetry]
      prints the sheet's clauses at a size, as DIMACS text for a SAT solver
  nesskettle read-back SHEET --size N SETTING [--named] [--tables]
      prints the case that a setting of the propositional variables stands for
  nesskettle setting SHEET CASE
      the other way: prints the setting of a case, as read-back takes it, with a line
      for each symbol; it satisfies the clauses exactly if the case is a model
  nesskettle from-solver SHEET --size N ANSWER [--tables]
      reads what a SAT solver answers to the clauses of this size, and prints its case,
      which is a model; or says that the solver claims none, which is not our none.
      As a pipe, for sheets on which find takes too long:
          nesskettle clauses SHEET --size N | cadical -q |
              nesskettle from-solver SHEET --size N -
  nesskettle check SHEET
      is it a sheet? prints how many functions, predicates and clauses it has
  nesskettle tptp FILE
      prints the sheet that a file of TPTP clauses is read into
  nesskettle merge FIRST SECOND
      prints one sheet made of two: the first's functions, predicates and clauses, each
      followed by the second's that are new
  nesskettle renumber SHEET CASE LIST [--tables]
      prints the case with its elements numbered otherwise, as LIST says
  nesskettle least-form SHEET CASE [--tables]
      prints the least case that any LIST makes of this one
  nesskettle same SHEET CASE CASE
      are the two one case with its elements numbered otherwise? prints answer=yes and
      the first LIST that makes the second of the first, or answer=no
  nesskettle --help, nesskettle --version

SHEET, CASE, SETTING, ANSWER and FILE are files; one of them may be -, standard
input. FIRST and SECOND are SHEETs. A LIST is written on the command line.

A SHEET may be a file of TPTP clauses instead, cnf(name, role, clause). with
comments: one whose name ends in .p or .tptp, or any file with --tptp. A case
has the symbols in the order in which they first appear in the clauses.

A SETTING file holds one digit, 0 or 1, for each propositional variable, in
order. Spaces, tabs and line ends between the digits do not count. The variables
of a function's entry are one for each value that it could have; a predicate's
entry is a variable itself.

An ANSWER is in the layout of the solver competitions, as cadical and picosat
print it: one line `s SATISFIABLE`, then `v` lines with n or -n for each
propositional variable n once, in any order, and 0 last of all; or the line
`s UNSATISFIABLE` alone. One space parts words, and every line ends with a line
feed. Lines that begin with c are passed over.

--tables prints a case as tables: rows are first arguments, columns are last
ones, and three arguments make one table for each first argument. A predicate's
table has 1 where it holds and . where it does not.

--named is for sheets with deep terms on constants, which soon have over 10
variables once flattened (refusal 7). Each term without variables that is no
constant and stands inside no other such term gets a constant of its own, a helper;
equal terms share one. The helper stands in the clauses instead, and a clause + =
HELPER TERM for each comes in front. Limits of a clause are then those of the
clauses with the names put in and of the helpers' own; at most 32 terms are named
(refusal 21). find finds what it finds without --named where both are taken and
neither is stopped, and no case shows a helper. clauses prints the clauses with the helpers, whose
variables come last, after all predicates, and a SETTING for read-back --named has
their digits. The other commands, --plain, and a TPTP file when it is read into a
sheet take terms as they are written.

A case whose elements are numbered otherwise is a model exactly if the case is. So
that find need not try every renumbering, it adds clauses on the constants, in the
order in which they are declared: the first is 1, and each other has a value of an
earlier one or the value after the highest of these. Every model has a renumbering
that obeys them, so that none and the smallest size stay what they are. The case
that is found is the least of those that obey; it is the least of all where the
constants are declared before the other functions.
--no-symmetry leaves the clauses out: the case that is found is the least of all, and
time is longer, above all where there is none. The clauses count as instances
(refusal 9).
--symmetry adds them to what clauses prints. A solver's answer to that text is read
as always, by from-solver or read-back.

--allow N lets find make at most N choices, over all sizes; 1,000,000 are the most
(refusal 24), and what it may make if --allow is not given. Where one more is needed
it stops: no case of the searched sizes before that size is a model, of that size and
larger ones nothing is known, and standard error tells how to go on. A larger N never
changes what is found, nor that there is none. find makes a choice where a
propositional variable is unset, no clause is wholly false and none forces a variable
(one literal is unset, the others are false). It takes the lowest one: yes first for
a function, no first for a predicate. Where that fails it goes back and takes the
other value, which is no choice.

--plain searches as one would on a whiteboard: it fills the cells of the tables in
order, the least value first, and looks at the clauses once all are filled. Where
both take a sheet, it finds what find --no-symmetry finds where that is not stopped.
It goes together with every other option of find but --named and --allow, as it makes
no choices and is never stopped; other commands do not search and take no --plain. A
case of size --high may have at most 64 cells (refusal 20), and time grows with the
number of cases: at size N a cell of a function has N values, one of a predicate 2.

merge takes a name with the same kind and number of arguments in both sheets as one
symbol, and leaves out each clause of the second sheet that the first has byte for
byte. A case is a model of the merged sheet exactly if its tables for each sheet's
symbols form a model of that sheet. Sheets that disagree on a name (refusal 22) are
not merged, nor are those that are too large for one (refusal 23).

A LIST has each of the digits from 1 to the case's size once (refusal 25). Element d
becomes the digit that stands d-th in it, in arguments and in values: with 231, 1
becomes 2, 2 becomes 3, and 3 becomes 1. Spaces and commas between the digits do not
count. A case is a model exactly if it is one renumbered. same compares the least
forms, which are equal exactly if some LIST makes one case of the other.

None is settled where low is 1, no function takes an argument, and high is at
least the number of constants.

--szs prints what TPTP's tools print. `% SZS status`, then Satisfiable, and the
model as a finite interpretation (fi_domain, fi_functors, fi_predicates) in which
\"1\", \"2\", .. are the elements; Unsatisfiable where none is settled; ResourceOut
where it is stopped; else GaveUp, also where a limit is in the way (refusals 9, 17,
20, 21). A file that is not taken for another reason is InputError, a wrong --low,
--high or --allow UsageError; the words stand on standard error as always.

Where standard error is a terminal, find tells there which size it is at.

A refused sheet, case or TPTP file is told with the refusal's number, line and
column, what is wrong, and the file's line with a mark under the column.

explain counts clauses from 1 in the order of the sheet, and takes choices with
the last letter of a clause fastest, letters in order of first appearance.

Exit status: 0 found, yes, or printed; 1 none or no; 2 refused or called wrongly;
3 from-solver's solver claims none; 4 find is stopped.
";

/// A file that has a sheet, or TPTP clauses that are read into one.
#[derive(Debug, PartialEq, Eq)]
pub struct Sheet {
    pub path: String,
    pub is_tptp: bool,
}

#[derive(Debug, PartialEq, Eq)]
pub enum Command {
    Help,
    Version,
    Tptp {
        file: String,
    },
    Merge {
        first: Sheet,
        second: Sheet,
    },
    Check {
        sheet: Sheet,
    },
    Judge {
        sheet: Sheet,
        case: String,
    },
    Explain {
        sheet: Sheet,
        case: String,
    },
    Clauses {
        sheet: Sheet,
        size: u64,
        options: WriteOptions,
    },
    ReadBack {
        sheet: Sheet,
        size: u64,
        terms: Terms,
        setting: String,
        tables: bool,
    },
    FromSolver {
        sheet: Sheet,
        size: u64,
        answer: String,
        tables: bool,
    },
    Setting {
        sheet: Sheet,
        case: String,
    },
    Renumber {
        sheet: Sheet,
        case: String,
        list: Vec<u8>,
        tables: bool,
    },
    LeastForm {
        sheet: Sheet,
        case: String,
        tables: bool,
    },
    Same {
        sheet: Sheet,
        first: String,
        second: String,
    },
    Find {
        sheet: Sheet,
        low: u64,
        high: u64,
        engine: Engine,
        layout: Layout,
    },
}

/// What the arguments ask for.
pub fn parse(arguments: impl Iterator<Item = String>) -> Result<Command, Failure> {
    let mut rest = Rest(arguments.collect());
    if rest.flag("--help") || rest.flag("-h") {
        return Ok(Command::Help);
    }
    if rest.flag("--version") {
        return Ok(Command::Version);
    }
    let tptp = rest.flag("--tptp");
    if rest.0.is_empty() {
        return Err(wrong("no command was given"));
    }
    let sheet_in = |path: String| Sheet {
        is_tptp: tptp || path.ends_with(".p") || path.ends_with(".tptp"),
        path,
    };
    match rest.0.remove(0).as_str() {
        "tptp" => {
            let [file] = rest.files("FILE")?;
            Ok(Command::Tptp { file })
        }
        "merge" => {
            let [first, second] = rest.files("FIRST SECOND")?;
            Ok(Command::Merge {
                first: sheet_in(first),
                second: sheet_in(second),
            })
        }
        "check" => {
            let [sheet] = rest.files("SHEET")?;
            Ok(Command::Check { sheet: sheet_in(sheet) })
        }
        verb @ ("judge" | "explain" | "setting") => {
            let [sheet, case] = rest.files("SHEET CASE")?;
            let sheet = sheet_in(sheet);
            Ok(match verb {
                "judge" => Command::Judge { sheet, case },
                "explain" => Command::Explain { sheet, case },
                _ => Command::Setting { sheet, case },
            })
        }
        "renumber" => {
            let tables = rest.flag("--tables");
            let [sheet, case, list] = rest.files("SHEET CASE LIST")?;
            Ok(Command::Renumber {
                sheet: sheet_in(sheet),
                case,
                list: list_in(&list)?,
                tables,
            })
        }
        "least-form" => {
            let tables = rest.flag("--tables");
            let [sheet, case] = rest.files("SHEET CASE")?;
            Ok(Command::LeastForm {
                sheet: sheet_in(sheet),
                case,
                tables,
            })
        }
        "same" => {
            let [sheet, first, second] = rest.files("SHEET CASE CASE")?;
            Ok(Command::Same {
                sheet: sheet_in(sheet),
                first,
                second,
            })
        }
        "clauses" => {
            let size = rest.size()?;
            let options = rest.write_options();
            let [sheet] = rest.files("SHEET")?;
            Ok(Command::Clauses {
                sheet: sheet_in(sheet),
                size,
                options,
            })
        }
        "read-back" => {
            let size = rest.size()?;
            let terms = rest.terms();
            let tables = rest.flag("--tables");
            let [sheet, setting] = rest.files("SHEET SETTING")?;
            Ok(Command::ReadBack {
                sheet: sheet_in(sheet),
                size,
                terms,
                setting,
                tables,
            })
        }
        "from-solver" => {
            let size = rest.size()?;
            let tables = rest.flag("--tables");
            let [sheet, answer] = rest.files("SHEET ANSWER")?;
            Ok(Command::FromSolver {
                sheet: sheet_in(sheet),
                size,
                answer,
                tables,
            })
        }
        "find" => {
            let low = rest.number("--low")?.unwrap_or(1);
            let high = rest.number("--high")?.unwrap_or(8);
            let engine = rest.engine()?;
            let layout = rest.layout()?;
            let [sheet] = rest.files("SHEET")?;
            Ok(Command::Find {
                sheet: sheet_in(sheet),
                low,
                high,
                engine,
                layout,
            })
        }
        other => Err(wrong(&format!("there is no command {other}"))),
    }
}

/// The arguments that are not used yet.
struct Rest(Vec<String>);

impl Rest {
    /// Takes the flag out, if it is there.
    fn flag(&mut self, name: &str) -> bool {
        let before = self.0.len();
        self.0.retain(|word| word != name);
        self.0.len() < before
    }

    /// Takes `NAME N` out, if it is there.
    fn number(&mut self, name: &str) -> Result<Option<u64>, Failure> {
        let Some(at) = self.0.iter().position(|word| word == name) else {
            return Ok(None);
        };
        self.0.remove(at);
        let value = if at < self.0.len() {
            self.0.remove(at)
        } else {
            String::new()
        };
        let number = value.parse().map_err(|_| wrong(&format!("{name} takes a number")))?;
        Ok(Some(number))
    }

    fn size(&mut self) -> Result<u64, Failure> {
        self.number("--size")?.ok_or(wrong("--size N is needed"))
    }

    /// Takes the flag of named terms out.
    fn terms(&mut self) -> Terms {
        if self.flag("--named") {
            Terms::Named
        } else {
            Terms::AsWritten
        }
    }

    /// Takes the flags of written clauses out.
    fn write_options(&mut self) -> WriteOptions {
        let mut options = WriteOptions {
            terms: self.terms(),
            ..WriteOptions::default()
        };
        if self.flag("--symmetry") {
            options.symmetry = Symmetry::Reduced;
        }
        options
    }

    /// Takes the flags of a search out. The plain search has no constant clauses to leave out, and takes that flag all the
    /// same, so that both can be called alike.
    fn engine(&mut self) -> Result<Engine, Failure> {
        let mut options = FindOptions::default();
        if self.flag("--no-symmetry") {
            options.symmetry = Symmetry::Kept;
        }
        options.terms = self.terms();
        let allowance = self.number("--allow")?;
        options.allowance = allowance.unwrap_or(options.allowance);
        match (self.flag("--plain"), options.terms, allowance) {
            (false, _, _) => Ok(Engine::Clauses(options)),
            (true, Terms::Named, _) => Err(wrong("--plain and --named are not for one search")),
            (true, Terms::AsWritten, Some(_)) => Err(wrong("--plain makes no choices and takes no --allow")),
            (true, Terms::AsWritten, None) => Ok(Engine::Plain),
        }
    }

    /// Takes the flags of a layout out.
    fn layout(&mut self) -> Result<Layout, Failure> {
        match (self.flag("--tables"), self.flag("--szs")) {
            (false, false) => Ok(Layout::Lines),
            (true, false) => Ok(Layout::Tables),
            (false, true) => Ok(Layout::Szs),
            (true, true) => Err(wrong("--tables and --szs are not for one answer")),
        }
    }

    /// All that is left, which must be as many files as the command takes.
    fn files<const N: usize>(self, names: &str) -> Result<[String; N], Failure> {
        if let Some(option) = self.0.iter().find(|word| word.len() > 1 && word.starts_with('-')) {
            return Err(wrong(&format!(
                "{option} is no option of this command, or stands there twice"
            )));
        }
        self.0
            .try_into()
            .map_err(|_| wrong(&format!("the command takes {names}")))
    }
}

/// The digits of a list as numbers; spaces and commas between them do not count.
fn list_in(word: &str) -> Result<Vec<u8>, Failure> {
    let written = word.bytes().filter(|byte| !matches!(byte, b' ' | b','));
    let digit = |byte: u8| match byte {
        b'0'..=b'9' => Ok(byte - b'0'),
        _ => Err(wrong("LIST is digits, 231 for example")),
    };
    written.map(digit).collect()
}

fn wrong(what: &str) -> Failure {
    Failure::new(format!("{what} (nesskettle --help says more)"))
}
