//! The symbols that a sheet declares, each with its line of a case. Sheet and case are as the library takes them.

/// A function or predicate, and its table.
pub struct Symbol<'a> {
    pub name: &'a str,
    pub arity: usize,
    pub is_predicate: bool,
    /// As the case writes them, with one space between.
    pub entries: &'a str,
}

/// The case's size, and the symbols in order.
pub fn symbols<'a>(sheet: &'a str, case: &'a str) -> (usize, Vec<Symbol<'a>>) {
    let mut lines = case.lines().filter_map(|line| line.split_once('=')).skip(1);
    let size = lines.next().and_then(|(_, size)| size.parse().ok()).unwrap_or(1);
    let declared = sheet.lines().filter_map(declared).zip(lines);
    let symbols = declared.map(|(symbol, (_, entries))| Symbol { entries, ..symbol });
    (size, symbols.collect())
}

/// Name, arity and kind of a line that declares a symbol.
pub fn declared(line: &str) -> Option<Symbol<'_>> {
    let function = line.strip_prefix("fun=").map(|rest| (rest, false));
    let (rest, is_predicate) = function.or(line.strip_prefix("pred=").map(|rest| (rest, true)))?;
    let (name, arity) = rest.rsplit_once('/')?;
    Some(Symbol {
        name,
        arity: arity.parse().ok()?,
        is_predicate,
        entries: "",
    })
}
