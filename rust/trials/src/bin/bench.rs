//! Times each operation on the proved library and on the reference, on the same inputs, in one run.
//!
//! Prints medians of processor time, which other work on the machine disturbs little, and their ratio.
//!
//!     cargo run --release -p nesskettle-trials --bin bench [RUNS [PART..]]
//!
//! All parts are taken where the command line names none.

use nesskettle_reference as reference;
use nesskettle_trials::dearest::{large_sheet, unchanging_case};
use nesskettle_trials::draft::Draft;
use nesskettle_trials::options::{asked, not_asked, told_no, told_yes};
use nesskettle_trials::problems::{sheet, GROUP_CASE, MILLION};
use nesskettle_trials::random::Random;
use nesskettle_trials::solver::stating;
use nesskettle_trials::timing::{seconds, shown};
use reference::Terms::{AsWritten, Named};
use reference::{sheet_of, FindOptions, Operations, Reason, Search, SolverAnswer, Symmetry, WriteOptions};

/// Terms that are refused as written.
const COUNTER: &[u8] = include_bytes!("../../../../examples/counter.sheet");

/// How many times each measurement is taken where the command line does not say.
const RUNS: usize = 5;

/// The rows, in parts.
const PARTS: [(&str, fn(&Bench)); 12] = [
    ("read", read),
    ("judge", judge),
    ("write", write),
    ("read-back", read_back),
    ("find", find),
    ("find-plain", find_plain),
    ("named", named),
    ("symmetry", symmetry),
    ("tptp", from_tptp),
    ("merge", merge),
    ("renumber", renumber),
    ("least-form", least_form),
];

fn main() {
    let mut arguments = std::env::args().skip(1);
    let runs = arguments.next().and_then(|n| n.parse().ok()).unwrap_or(RUNS);
    let wanted: Vec<String> = arguments.collect();
    let bench = Bench { runs };
    println!("{:<44}{:>12}{:>12}{:>8}  rate", "", "nesskettle", "reference", "ratio");
    for (name, part) in PARTS {
        if wanted.is_empty() || wanted.iter().any(|w| w == name) {
            part(&bench);
        }
    }
}

struct Bench {
    runs: usize,
}

impl Bench {
    /// One row: the work is done `times` times in each measurement, and the two take turns. The rate is how much of
    /// `amount` the library does in a second.
    fn row(&self, name: &str, times: u32, amount: Option<(f64, &str)>, mut work: impl FnMut(&Operations)) {
        let mut measure =
            |operations: &Operations| seconds(|| (0..times).for_each(|_| work(operations))) / times as f64;
        let mut library = Vec::new();
        let mut plain = Vec::new();
        for _ in 0..self.runs {
            library.push(measure(&nesskettle::OPERATIONS));
            plain.push(measure(&reference::OPERATIONS));
        }
        let (library, plain) = (median(library), median(plain));
        let rate = amount.map_or(String::new(), |(amount, unit)| {
            format!("{:.0} {unit}/s", amount / library)
        });
        let row = format!(
            "{name:<44}{:>12}{:>12}{:>8.2}  {rate}",
            shown(library),
            shown(plain),
            library / plain
        );
        println!("{}", row.trim_end());
    }
}

fn median(mut times: Vec<f64>) -> f64 {
    times.sort_by(f64::total_cmp);
    times[times.len() / 2]
}

fn read(bench: &Bench) {
    let small = sheet("two-constants");
    bench.row("read, 7 lines", 10_000, None, |o| assert!((o.read)(small).is_ok()));
    let clause = "+ longer A B".to_string() + &" - = f A B".repeat(12);
    let large = sheet_of(&["f/1"], &["longer/2"], &[clause.as_str(); 64]);
    let kilobytes = large.len() as f64 / 1e3;
    let name = format!("read, 64 clauses of 64 words, {kilobytes:.1} kB");
    bench.row(&name, 100, Some((kilobytes / 1e3, "MB")), |o| {
        assert!((o.read)(&large).is_ok())
    });
}

/// Judge and Explain on the same cases.
fn judge(bench: &Bench) {
    let group = sheet("group");
    bench.row("judge, group of 6", 1_000, None, |o| {
        assert_eq!((o.judge)(group, GROUP_CASE), Ok(true))
    });
    bench.row("explain, group of 6", 1_000, None, |o| {
        assert_eq!((o.explain)(group, GROUP_CASE), Ok(None))
    });
    let clause = "+ p A B C + p D E F - = G H + = f G H f H G";
    let sheet = sheet_of(&["f/2"], &["p/3"], &[clause]);
    let mut random = Random::new(6);
    let mut values = |count: usize, least: usize, most: usize| {
        let values: Vec<String> = (0..count).map(|_| random.between(least, most).to_string()).collect();
        values.join(" ")
    };
    let case = format!("case=1\nsize=8\nf={}\np={}\n", values(64, 1, 8), values(512, 0, 1));
    let choices = Some((8f64.powi(8) / 1e6, "million choices"));
    bench.row("judge, 8 letters at size 8", 1, choices, |o| {
        assert_eq!((o.judge)(&sheet, case.as_bytes()), Ok(true))
    });
    bench.row("explain, 8 letters at size 8", 1, choices, |o| {
        assert_eq!((o.explain)(&sheet, case.as_bytes()), Ok(None))
    });
}

fn write(bench: &Bench) {
    let options = not_asked(AsWritten);
    write_row(bench, "write, group at size 4", sheet("group"), 4, options, 100);
    write_row(bench, "write, lattice at size 6", sheet("lattice"), 6, options, 3);
    write_row(bench, "write, 1,000,000 instances", MILLION, 8, options, 1);
}

fn write_row(bench: &Bench, name: &str, sheet: &[u8], size: u64, options: WriteOptions, times: u32) {
    let length = reference::write(sheet, size, options, &mut [])
        .expect_err("no room")
        .needed as usize;
    let mut output = vec![0; length];
    bench.row(name, times, Some((length as f64 / 1e6, "MB")), |o| {
        assert_eq!((o.write)(sheet, size, options, &mut output), Ok(length));
    });
}

/// Read back and Setting, the one on what the other leaves, and a solver's answer with the same setting.
fn read_back(bench: &Bench) {
    let draft = Draft::most_cells();
    let sheet = draft.sheet();
    let setting = draft.setting(&mut Random::new(7), 8);
    let mut case = vec![0; 24_902];
    let amount = Some((setting.len() as f64 / 1e6, "million variables"));
    let mut length = 0;
    bench.row("read back, 24 tables of 512 at size 8", 20, amount, |o| {
        length = (o.read_back)(&sheet, 8, AsWritten, &setting, &mut case).expect("it is a setting")
    });
    let mut output = vec![0; setting.len()];
    bench.row("setting, 24 tables of 512 at size 8", 20, amount, |o| {
        assert_eq!((o.setting)(&sheet, &case[..length], &mut output), Ok(setting.len()))
    });
    assert_eq!(output, setting);
    let text = stating(&mut Random::new(8), &setting);
    bench.row("from solver, 24 tables of 512 at size 8", 20, amount, |o| {
        assert_eq!(
            (o.from_solver)(&sheet, 8, &text, &mut case),
            Ok(SolverAnswer::Case { length })
        )
    });
}

fn find(bench: &Bench) {
    for (name, size, times) in [
        ("group", 4, 5),
        ("group", 5, 1),
        ("group", 6, 1),
        ("exponent-2", 6, 1),
        ("quasigroup-5", 8, 5),
        ("quasigroup-3", 7, 1),
        ("quasigroup-3", 8, 1),
        ("pigeonhole", 8, 1),
        ("serial-order", 6, 20),
        ("tournament", 6, 20),
        ("steiner", 7, 20),
        ("lattice", 4, 1),
        ("lattice", 5, 1),
    ] {
        find_row(bench, name, sheet(name), size, told_no(AsWritten), times);
    }
}

fn find_row(bench: &Bench, name: &str, sheet: &[u8], size: u64, options: FindOptions, times: u32) {
    let (work, output) = reference::needed(sheet, size, options).expect("it is a sheet");
    let mut work = vec![0; work as usize];
    let mut output = vec![0; output as usize];
    let expected = reference::find(sheet, size, size, options, &mut work, &mut output);
    let outcome = match expected.expect("it is searched") {
        Search::Found { .. } => "found",
        Search::None { .. } => "none",
        Search::Stopped { .. } => "stopped",
    };
    let call = match (options.terms, options.symmetry) {
        (AsWritten, Symmetry::Kept) => "find",
        (Named, Symmetry::Kept) => "find named",
        (_, Symmetry::Reduced) => "find sym",
    };
    bench.row(&format!("{call}, {name} at size {size}, {outcome}"), times, None, |o| {
        assert_eq!((o.find)(sheet, size, size, options, &mut work, &mut output), expected);
    });
}

/// Named terms: sheets that have none of them, as in the rows above; the example that is refused as written; and both ways
/// on the same sheet of fixed terms.
fn named(bench: &Bench) {
    let (write, find) = (not_asked(Named), told_no(Named));
    write_row(bench, "write named, group at size 4", sheet("group"), 4, write, 100);
    find_row(bench, "group", sheet("group"), 5, find, 1);
    find_row(bench, "steiner", sheet("steiner"), 7, find, 20);
    write_row(bench, "write named, counter at size 4", COUNTER, 4, write, 10);
    find_row(bench, "counter", COUNTER, 3, find, 20);
    find_row(bench, "counter", COUNTER, 5, find, 1);
    // ten variables as written, five and five in the helpers' own clauses
    let clause = "+ r s s s s y s s s s z";
    let steps = sheet_of(&["y/0", "z/0", "s/1"], &["r/2"], &[clause, "- r A A"]);
    let as_written = not_asked(AsWritten);
    write_row(bench, "write, four steps twice at size 3", &steps, 3, as_written, 3);
    write_row(bench, "write named, four steps twice at size 3", &steps, 3, write, 100);
    find_row(bench, "four steps twice", &steps, 3, told_no(AsWritten), 3);
    find_row(bench, "four steps twice", &steps, 3, find, 100);
    let words = long_line();
    let name = format!("write named, a line of {:.1} kB at size 1", words.len() as f64 / 1e3);
    write_row(bench, &name, &words, 1, write, 100);
}

/// Constant clauses, on sheets of the rows above.
fn symmetry(bench: &Bench) {
    let options = asked(AsWritten);
    write_row(bench, "write sym, group at size 4", sheet("group"), 4, options, 100);
    for (name, size, times) in [
        ("group", 5, 5),
        ("group", 7, 1),
        ("exponent-2", 6, 5),
        ("exponent-2", 8, 1),
        ("pigeonhole", 8, 1),
        ("lattice", 4, 5),
        ("lattice", 5, 1),
    ] {
        find_row(bench, name, sheet(name), size, told_yes(AsWritten), times);
    }
}

/// Twelve literals of three terms of 61 words each.
fn long_line() -> Vec<u8> {
    let thrice = |term: &str| format!("h {term} {term} {term}");
    let thirteen = thrice(&thrice("a"));
    let large = |last: &str| format!("h {} {thirteen} {last}", thrice(&thirteen));
    let terms = [large("f f f h a a a"), large("f f f h a a b"), large("f f f h a b a")];
    let line = vec![format!("+ q {}", terms.join(" ")); 12].join(" ");
    sheet_of(&["a/0", "b/0", "f/1", "h/3"], &["q/3"], &[&line])
}

/// Both searches on the same small sheets that have no model: one makes clauses, the other tries so many cases.
fn find_plain(bench: &Bench) {
    for (name, size, cases) in [
        ("serial-order", 3, 13_824),
        ("pigeonhole", 4, 1_024),
        ("pigeonhole", 6, 279_936),
    ] {
        let sheet = sheet(name);
        let (work, output) = reference::needed(sheet, size, told_no(AsWritten)).expect("it is a sheet");
        let mut work = vec![0; work as usize];
        let mut output = vec![0; output as usize];
        let is_none = |answer| assert!(matches!(answer, Ok(Search::None { settled: false, .. })));
        bench.row(&format!("find, {name} at size {size}, none"), 10, None, |o| {
            is_none((o.find)(sheet, size, size, told_no(AsWritten), &mut work, &mut output));
        });
        let amount = Some((cases as f64 / 1e3, "thousand cases"));
        bench.row(&format!("find plain, {name} at size {size}, none"), 1, amount, |o| {
            is_none((o.find_plain)(sheet, size, size, &mut output));
        });
    }
}

fn from_tptp(bench: &Bench) {
    // as a clinic writes them
    let clause = |i: usize| {
        format!(
            "cnf(rule_{i}, axiom, ~more(X, Y) | ~more(Y, Z) | more(X, Z)\n    | shown(left, X) | ~shown(right, cap(Y)) | \
             stop(f(X, Y), Z)\n    | X != both | Y != cap(Z) | more(both, X) | patchy(left, Y) | ~patchy(right, Z)). % rule {i} of the \
             protocol for both eyes\n"
        )
    };
    let clauses: String = (1..=64).map(clause).collect();
    assert!(reference::from_tptp(clauses.as_bytes(), &mut [0; 16_384]).is_ok());
    tptp_row(bench, "64 ordinary clauses", clauses, 20);
    let line = "   \t % a comment to the line's end, of any bytes\r\n/* and another, * which ends\nhere */\n\n";
    tptp_row(bench, "comments and blanks", line.repeat(1_000_000 / line.len()), 2);
    for depth in [60, 1_000, 30_000, 300_000] {
        let inside = format!("cnf(deep, axiom, p({}X", "f(".repeat(depth));
        let closed = format!("{inside}{})).\n", ")".repeat(depth));
        tptp_row(bench, &format!("terms nested {depth} deep"), closed, 1);
        tptp_row(bench, &format!("nested {depth} deep, unclosed"), inside, 1);
    }
}

fn tptp_row(bench: &Bench, name: &str, text: String, times: u32) {
    let kilobytes = text.len() as f64 / 1e3;
    let mut output = vec![0; 16_384];
    let expected = reference::from_tptp(text.as_bytes(), &mut output);
    let name = format!("TPTP, {name}, {kilobytes:.0} kB");
    bench.row(&name, times, Some((kilobytes / 1e3, "MB")), |o| {
        assert_eq!((o.from_tptp)(text.as_bytes(), &mut output), expected);
    });
}

/// Sheets whose clauses are alike but for their last bytes, so that no comparison of two ends early.
fn merge(bench: &Bench) {
    let sheet = large_sheet('A');
    let kilobytes = sheet.len() as f64 / 1e3;
    let mut output = vec![0; sheet.len()];
    let amount = Some((2.0 * kilobytes / 1e3, "MB"));
    let name = format!("merge, the same 64 clauses, {kilobytes:.1} kB each");
    bench.row(&name, 20, amount, |o| {
        assert_eq!((o.merge)(&sheet, &sheet, &mut output), Ok(sheet.len()));
    });
    let other = large_sheet('B');
    assert_eq!(sheet[..sheet.len() - 2], other[..other.len() - 2]);
    bench.row("merge, unlike in the last byte, 64 clauses", 20, amount, |o| {
        let refused = (o.merge)(&sheet, &other, &mut output).expect_err("there are 65 clauses");
        assert_eq!(refused.refusal.reason, Reason::MergeTooLarge);
    });
    let small = sheet_of(&["a/0", "b/0"], &["p/1"], &["+ p a", "- = a b"]);
    let mut output = vec![0; 200];
    bench.row("merge, 9 lines each", 10_000, None, |o| {
        assert_eq!((o.merge)(&small, &small, &mut output), Ok(small.len()));
    });
}

/// The group's table, and the most tables there can be.
fn renumber(bench: &Bench) {
    let mut output = GROUP_CASE.to_vec();
    let list = [2, 3, 4, 5, 6, 1];
    bench.row("renumber, group of 6", 1_000, None, |o| {
        assert!((o.renumber)(sheet("group"), GROUP_CASE, &list, &mut output).is_ok())
    });
    let draft = Draft::most_cells();
    let (sheet, case) = (draft.sheet(), draft.case(&mut Random::new(12), 8));
    let list = [2, 3, 4, 5, 6, 7, 8, 1];
    let mut output = case.clone();
    let amount = Some((case.len() as f64 / 1e6, "MB"));
    bench.row("renumber, 24 tables of 512 at size 8", 20, amount, |o| {
        assert_eq!((o.renumber)(&sheet, &case, &list, &mut output), Ok(case.len()))
    });
}

/// Tables of any entries, in which most rearrangements are told from the least at one of the first cells; and tables that every
/// rearrangement leaves as they are, so that each is compared to the last cell: this takes longest.
fn least_form(bench: &Bench) {
    let group = sheet("group");
    least_form_row(bench, "group of 6", group, GROUP_CASE, 100);
    let table = sheet_of(&["f/2"], &[], &[]);
    let any = Draft::of_sheet(&table).case(&mut Random::new(13), 8);
    least_form_row(bench, "64 cells at size 8", &table, &any, 5);
    let first = unchanging_case(&Draft::of_sheet(&table), 8, 0, false);
    least_form_row(bench, "64 cells at size 8, longest", &table, &first, 1);
    let draft = Draft::most_cells();
    let most = draft.sheet();
    let any = draft.case(&mut Random::new(14), 8);
    least_form_row(bench, "12,288 cells at size 8", &most, &any, 5);
    let first = unchanging_case(&draft, 8, 0, false);
    least_form_row(bench, "12,288 cells at size 8, longest", &most, &first, 1);
}

fn least_form_row(bench: &Bench, name: &str, sheet: &[u8], case: &[u8], times: u32) {
    let mut output = case.to_vec();
    bench.row(&format!("least form, {name}"), times, None, |o| {
        assert_eq!((o.least_form)(sheet, case, &mut output), Ok(case.len()))
    });
}
