//! Named problems: the sheets of `rust/data/sheets`.

pub struct Problem {
    pub name: &'static str,
    pub sheet: &'static [u8],
}

macro_rules! problems {
    ($($name:literal)*) => {
        /// All of them.
        pub const ALL: &[Problem] = &[$(Problem {
            name: $name,
            sheet: include_bytes!(concat!("../../data/sheets/", $name, ".sheet")),
        }),*];
    };
}

problems! {
    "two-constants" "group" "exponent-2" "quasigroup-3" "quasigroup-5" "pigeonhole" "serial-order" "tournament"
    "steiner" "lattice" "million" "all-different"
}

/// Exactly 1,000,000 instances at size 8.
pub const MILLION: &[u8] = include_bytes!("../../data/sheets/million.sheet");

/// The same, with one constant and the constant clauses.
pub const MILLION_CONSTANT: &[u8] = include_bytes!("../../data/sheets/million-constant.sheet");

/// A group of six elements that do not all commute, as tables.
pub const GROUP_CASE: &[u8] = include_bytes!("../../data/sheets/group-6.case");

/// The sheet with this name.
pub fn sheet(name: &str) -> &'static [u8] {
    let problem = ALL.iter().find(|p| p.name == name);
    problem.unwrap_or_else(|| panic!("no problem {name}")).sheet
}
