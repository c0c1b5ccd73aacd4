//! A case as tables that people can read.

use crate::symbols::{symbols, Symbol};

/// A symbol of the sheet with the values that the case gives it.
struct Table<'a> {
    name: &'a str,
    arity: usize,
    is_predicate: bool,
    values: Vec<char>,
}

/// The case's tables. Sheet and case are as the library takes and writes them.
pub fn tables(sheet: &[u8], case: &[u8]) -> String {
    let (sheet, case) = (String::from_utf8_lossy(sheet), String::from_utf8_lossy(case));
    let (size, symbols) = symbols(&sheet, &case);
    let tables: Vec<Table> = symbols.into_iter().map(table).collect();
    let mut text = String::new();
    for (i, table) in tables.iter().enumerate() {
        let both_single = i > 0 && table.arity == 0 && tables[i - 1].arity == 0;
        if i > 0 && !both_single {
            text.push('\n');
        }
        text += &table.shown(size);
    }
    text
}

fn table(symbol: Symbol) -> Table {
    let shown = |value: &str| match value {
        "0" => '.',
        _ => value.chars().next().unwrap_or('?'),
    };
    Table {
        name: symbol.name,
        arity: symbol.arity,
        is_predicate: symbol.is_predicate,
        values: symbol.entries.split(' ').map(shown).collect(),
    }
}

impl Table<'_> {
    fn shown(&self, size: usize) -> String {
        match self.arity {
            0 => format!("{} = {}\n", self.name, self.single()),
            1 => grid(self.name, size, &[("".to_string(), &self.values)]),
            2 => self.rows(self.name, size, &self.values),
            _ => {
                let slices = self.values.chunks(size * size).zip(1..);
                let grids = slices.map(|(values, first)| {
                    let heading = format!("{} {first}", self.name);
                    self.rows(&heading, size, values)
                });
                grids.collect::<Vec<_>>().join("\n")
            }
        }
    }

    fn single(&self) -> String {
        match (self.is_predicate, self.values.first()) {
            (true, Some('1')) => "yes".to_string(),
            (true, _) => "no".to_string(),
            (false, value) => value.map_or(String::new(), char::to_string),
        }
    }

    /// One row for each element, with the element in front.
    fn rows(&self, heading: &str, size: usize, values: &[char]) -> String {
        let rows: Vec<(String, &[char])> = values
            .chunks(size)
            .zip(1..)
            .map(|(row, element)| (format!("{element}"), row))
            .collect();
        grid(heading, size, &rows)
    }
}

/// Rows under the elements 1 to size, the heading in the corner.
fn grid<V: AsRef<[char]>>(heading: &str, size: usize, rows: &[(String, V)]) -> String {
    let width = heading.len();
    let line = |front: &str, values: &[char]| {
        let values: Vec<String> = values.iter().map(char::to_string).collect();
        format!("{front:>width$} | {}\n", values.join(" "))
    };
    let elements: Vec<char> = (1..=size).filter_map(|d| char::from_digit(d as u32, 10)).collect();
    let mut text = line(heading, &elements);
    text += &format!("{}-+-{}\n", "-".repeat(width), "-".repeat(2 * size - 1));
    for (front, values) in rows {
        text += &line(front, values.as_ref());
    }
    text
}
