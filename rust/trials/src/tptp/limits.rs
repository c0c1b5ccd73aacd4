//! Statements at each limit of a sheet, and one over it.

use super::clauses::{statement, ANY};
use super::Statements;
use crate::random::Random;

/// The names in a group of statements begin with this letter, so that groups do not meet.
type Letter = char;

/// Two or three groups, each around one limit, in any order.
pub fn around_limits(random: &mut Random) -> Statements {
    let groups: [fn(&mut Random, Letter) -> Vec<String>; 10] = [
        names, arities, functions, predicates, variables, words, literals, flattened, clauses, clashes,
    ];
    let mut statements = Vec::new();
    for letter in ['a', 'm', 'z'].into_iter().take(random.between(1, 3)) {
        for clause in random.pick(&groups)(random, letter) {
            statements.push(statement(random, &clause, ANY));
        }
    }
    statements
}

/// The limit, or one more or less.
fn around(random: &mut Random, limit: usize) -> usize {
    random.between(limit - 1, limit + 1)
}

fn joined(parts: impl Iterator<Item = String>) -> String {
    parts.collect::<Vec<_>>().join(" | ")
}

/// A name of about 12 bytes, or with a letter that no sheet's name has.
fn names(random: &mut Random, letter: Letter) -> Vec<String> {
    let name = match random.below(3) {
        0 => format!("{letter}_Upper"),
        _ => letter.to_string().repeat(around(random, 12)),
    };
    let clauses = [
        name.clone(),
        format!("~ {name} ( X )"),
        format!("{name} = X"),
        format!("q{letter} ( {name} )"),
    ];
    vec![random.pick(&clauses).clone()]
}

/// About three arguments, of a function or a predicate, alone or within another's.
fn arities(random: &mut Random, letter: Letter) -> Vec<String> {
    let arguments = vec!["X"; around(random, 3)].join(" , ");
    let clauses = [
        format!("{letter} ( {arguments} )"),
        format!("{letter} ( {arguments} ) != X"),
        format!("q{letter} ( {letter} ( {arguments} ) , X )"),
    ];
    vec![random.pick(&clauses).clone()]
}

/// About 12 functions, in one clause or several.
fn functions(random: &mut Random, letter: Letter) -> Vec<String> {
    let count = around(random, 12);
    let equalities = (0..count).map(|i| format!("X = {letter}{i}"));
    if random.once_in(2) {
        equalities.collect()
    } else {
        vec![joined(equalities)]
    }
}

fn predicates(random: &mut Random, letter: Letter) -> Vec<String> {
    let count = around(random, 12);
    let atoms = (0..count).map(|i| format!("{letter}{i} ( X )"));
    if random.once_in(2) {
        atoms.collect()
    } else {
        vec![joined(atoms)]
    }
}

/// About eight variables, and the next clause has variables of its own.
fn variables(random: &mut Random, letter: Letter) -> Vec<String> {
    let count = around(random, 8);
    let clause = joined((0..count).map(|i| format!("X{i} = X{}", i / 2)));
    vec![clause, format!("{letter} ( Y )")]
}

/// About 64 words: literals of 5, and one of 2 to 6.
fn words(random: &mut Random, letter: Letter) -> Vec<String> {
    let twelve = (0..12).map(|_| format!("~ {letter}p ( X , X , Y )"));
    let rest = [
        format!("{letter}q"),
        format!("{letter}r ( X )"),
        "X != Y".to_string(),
        format!("{letter}f ( X ) = X"),
        format!("{letter}f ( X ) = {letter}f ( X )"),
    ];
    vec![joined(twelve.chain([random.pick(&rest).clone()]))]
}

/// About 16 literals; `$false` is none.
fn literals(random: &mut Random, letter: Letter) -> Vec<String> {
    let mut parts: Vec<String> = (0..around(random, 16)).map(|_| format!("{letter}p")).collect();
    for _ in 0..random.below(3) {
        let at = random.between(0, parts.len());
        parts.insert(at, "$false".to_string());
    }
    vec![joined(parts.into_iter())]
}

/// About ten variables after flattening: letters, and terms of which equal ones count once.
fn flattened(random: &mut Random, letter: Letter) -> Vec<String> {
    let letters = random.between(1, 6);
    let terms = around(random, 10) - letters;
    let own = (0..letters).map(|i| format!("{letter}p ( X{i} )"));
    let nested = |depth: usize| format!("{}X0{}", format!("{letter}f ( ").repeat(depth), " )".repeat(depth));
    let lifted = format!("{letter}p ( {} )", nested(terms));
    let equal = format!("~ {letter}p ( {} )", nested(random.between(1, terms)));
    vec![joined(own.chain([lifted, equal]))]
}

/// About 64 clauses.
fn clauses(random: &mut Random, letter: Letter) -> Vec<String> {
    let clause = [format!("{letter}"), "$false".to_string(), "X = X".to_string()];
    let clause = random.pick(&clause);
    vec![clause.clone(); around(random, 64)]
}

/// A symbol twice, with two arities or as both kinds, in one clause or two.
fn clashes(random: &mut Random, letter: Letter) -> Vec<String> {
    let uses = [
        format!("{letter}"),
        format!("{letter} ( X )"),
        format!("{letter} = X"),
        format!("{letter} ( X ) != X"),
        format!("~ {letter} ( X , X )"),
        format!("q{letter} ( {letter} )"),
        format!("{letter} ( {letter} )"),
        format!("{letter} ( X , X , X , X )"),
    ];
    let (first, second) = (random.pick(&uses).clone(), random.pick(&uses).clone());
    if random.once_in(2) {
        vec![first, second]
    } else {
        vec![format!("{first} | {second}")]
    }
}

/// Statements whose sheet has exactly so many bytes, about as many as a sheet may have.
///
/// Its predicates are one with two arguments and a name of 12 letters, and eleven without arguments and with names of 1 to
/// 11 letters, so that a clause can be as long as is wanted.
pub fn sheet_bytes(random: &mut Random, bytes: usize) -> Statements {
    let all: Vec<String> = (1..=11).map(name).collect();
    let full = vec![format!("~ {} ( X , X )", name(12)); 16];
    let full_line = "clause=".len() + full.len() * "- bbbbbbbbbbbb A A ".len();
    let declared: usize = (1..=12).map(|length| "pred=/0\n".len() + length).sum();
    let head = "sheet=1\nfuns=0\npreds=12\nclauses=60\n".len() + declared + line(&all);
    let fulls = (bytes - head) / full_line - 1;
    let left = bytes - head - fulls * full_line;
    let mut clauses = vec![all];
    clauses.extend(vec![full; fulls]);
    clauses.extend((0..3).map(|i| literals_of_line((left + i) / 3)));
    let clauses = clauses.into_iter().map(|literals| joined(literals.into_iter()));
    clauses.map(|clause| statement(random, &clause, ANY)).collect()
}

fn name(length: usize) -> String {
    "b".repeat(length)
}

/// The bytes of a clause line of these predicates without arguments: each has a sign and two blanks beside it.
fn line(predicates: &[String]) -> usize {
    "clause=".len() + predicates.iter().map(|p| "+ ".len() + p.len() + 1).sum::<usize>()
}

/// Predicates whose clause line has so many bytes, 100 to 200.
fn literals_of_line(bytes: usize) -> Vec<String> {
    let bytes = bytes - "clause=".len();
    let count = bytes.div_ceil("+ bbbbbbbbbbb ".len());
    (0..count).map(|i| name((bytes + i) / count - "+  ".len())).collect()
}
