//! A SAT solver's answer, in the layout of the solver competitions.

/// What a solver says of the clauses.
pub enum Claim {
    /// They are satisfied where each propositional variable is yes or no as here.
    Satisfiable(Vec<bool>),
    Unsatisfiable,
}

/// Reads the answer about so many propositional variables; nothing where it is not as laid out, or does not state each of
/// them once.
pub fn claim(text: &[u8], variables: usize) -> Option<Claim> {
    let lines = text.strip_suffix(b"\n")?.split(|&b| b == b'\n');
    let mut lines = lines.filter(|line| !line.starts_with(b"c"));
    match lines.next()? {
        b"s SATISFIABLE" => {
            let lines: Option<Vec<Vec<Number>>> = lines.map(numbers).collect();
            stated(&lines?.concat(), variables).map(Claim::Satisfiable)
        }
        b"s UNSATISFIABLE" => lines.next().is_none().then_some(Claim::Unsatisfiable),
        _ => None,
    }
}

/// A variable and whether it is yes. The variable of the number 0 is 0.
type Number = (usize, bool);

/// The numbers of a `v` line.
fn numbers(line: &[u8]) -> Option<Vec<Number>> {
    let words = line.strip_prefix(b"v ")?.split(|&b| b == b' ');
    words.map(number).collect()
}

/// The number that a word is. One that is too large for the type is above every variable.
fn number(word: &[u8]) -> Option<Number> {
    let digits = word.strip_prefix(b"-").unwrap_or(word);
    let plain = digits.iter().all(u8::is_ascii_digit) && (word == b"0" || !digits.starts_with(b"0"));
    let variable = plain.then(|| std::str::from_utf8(digits).ok()?.parse().ok());
    Some((variable??, digits.len() == word.len()))
}

/// Which variables are yes: each stands there once, and 0 last of all and only there.
fn stated(numbers: &[Number], variables: usize) -> Option<Vec<bool>> {
    let (&(last, _), numbers) = numbers.split_last()?;
    let mut setting = vec![None; variables];
    for &(variable, yes) in numbers {
        let place = setting.get_mut(variable.checked_sub(1)?)?;
        place.replace(yes).is_none().then_some(())?;
    }
    setting.into_iter().collect::<Option<_>>().filter(|_| last == 0)
}
