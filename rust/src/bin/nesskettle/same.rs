//! `nesskettle same`: whether two cases are one with the elements numbered otherwise, and by which list.

use crate::renumber::least_form;
use crate::report::{Failure, File};
use crate::symbols::{symbols, Symbol};
use crate::{print, NO};

/// They are one exactly if their least forms are equal.
pub fn same(sheet: &File, first: &File, second: &File) -> Result<u8, Failure> {
    if least_form(sheet, first)? != least_form(sheet, second)? {
        print(b"answer=no\n")?;
        return Ok(NO);
    }
    let list = list(sheet, first, second);
    let digits: String = list.iter().map(|number| char::from(b'0' + number)).collect();
    print(format!("answer=yes\nlist={digits}\n").as_bytes())
}

/// The first list with which the first case becomes the second. Each is tried on the tables one by one, small ones first, as
/// most lists fail on the first of them, and at last on the whole case.
fn list(sheet: &File, first: &File, second: &File) -> Vec<u8> {
    let texts = [sheet, first, second].map(|file| String::from_utf8_lossy(&file.bytes));
    let (size, before) = symbols(&texts[0], &texts[1]);
    let (_, after) = symbols(&texts[0], &texts[2]);
    let mut pairs: Vec<Pair> = before.iter().zip(&after).map(|(b, a)| Pair::of(size, b, a)).collect();
    pairs.sort_by_key(|pair| pair.second.len());
    pairs.push(Pair {
        sheet: sheet.bytes.clone(),
        first: first.bytes.clone(),
        second: second.bytes.clone(),
    });
    let fits = |list: &[u8]| pairs.iter().all(|pair| pair.fits(list));
    completed(&[], size, &fits).expect("cases with the same least form are one renumbered")
}

/// Two cases of one sheet.
struct Pair {
    sheet: Vec<u8>,
    first: Vec<u8>,
    second: Vec<u8>,
}

impl Pair {
    /// The tables of one symbol, as cases of a sheet that declares nothing else.
    fn of(size: usize, before: &Symbol, after: &Symbol) -> Pair {
        let Symbol { name, arity, .. } = before;
        let declared = if before.is_predicate {
            format!("funs=0\npreds=1\npred={name}/{arity}")
        } else {
            format!("funs=1\nfun={name}/{arity}\npreds=0")
        };
        let case = |symbol: &Symbol| format!("case=1\nsize={size}\n{name}={}\n", symbol.entries).into_bytes();
        Pair {
            sheet: format!("sheet=1\n{declared}\nclauses=0\n").into_bytes(),
            first: case(before),
            second: case(after),
        }
    }

    /// Does the first become the second with this list?
    fn fits(&self, list: &[u8]) -> bool {
        let mut output = vec![0; self.second.len()];
        let renumbered = nesskettle::renumber(&self.sheet, &self.first, list, &mut output);
        renumbered == Ok(self.second.len()) && output == self.second
    }
}

/// The first rearrangement of 1 to the size that begins like this and fits.
fn completed(begun: &[u8], size: usize, fits: &impl Fn(&[u8]) -> bool) -> Option<Vec<u8>> {
    if begun.len() == size {
        return fits(begun).then(|| begun.to_vec());
    }
    let mut next = (1..=size as u8).filter(|number| !begun.contains(number));
    next.find_map(|number| completed(&[begun, &[number]].concat(), size, fits))
}
