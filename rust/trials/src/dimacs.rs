//! DIMACS text: which settings satisfy it, the text with more clauses, assignments as settings.

pub struct Dimacs {
    pub text: Vec<u8>,
    pub variables: usize,
    count: usize,
    /// Where the clauses begin.
    body: usize,
}

impl Dimacs {
    /// The text that Write left.
    pub fn new(text: Vec<u8>) -> Self {
        let body = 1 + text.iter().position(|&b| b == b'\n').expect("the header is a line");
        let header = String::from_utf8_lossy(&text[..body]).into_owned();
        let counts = header
            .trim_end()
            .strip_prefix("p cnf ")
            .and_then(|counts| counts.split_once(' '));
        let (variables, clauses) = counts.expect("the header has two counts");
        let number = |text: &str| text.parse().expect("a count is a number");
        Dimacs {
            variables: number(variables),
            count: number(clauses),
            body,
            text,
        }
    }

    /// Is a number of every clause true? A number n is if byte n is 1, and -n if it is 0.
    pub fn satisfied_by(&self, setting: &[u8]) -> bool {
        assert_eq!(setting.len(), self.variables, "one byte for each variable");
        let is_true = |&number: &i32| (setting[number.unsigned_abs() as usize - 1] == 1) == (number > 0);
        self.clauses().all(|clause| clause.iter().any(is_true))
    }

    /// The numbers of each clause.
    pub fn clauses(&self) -> impl Iterator<Item = Vec<i32>> + '_ {
        let lines = std::str::from_utf8(&self.text[self.body..])
            .expect("it is text")
            .lines();
        lines.map(|clause| {
            let numbers = clause.split(' ').map(|n| n.parse().expect("a number"));
            numbers.take_while(|&n| n != 0).collect()
        })
    }

    /// The clauses, each as the variables that make it true where they are yes, and where they are no. There are at most 32.
    pub fn masks(&self) -> Vec<(u32, u32)> {
        let mask = |clause: Vec<i32>| {
            let bits = |positive: bool| {
                let numbers = clause.iter().filter(move |&&n| (n > 0) == positive);
                numbers.fold(0, |bits, n| bits | 1 << (n.unsigned_abs() - 1))
            };
            (bits(true), bits(false))
        };
        self.clauses().map(mask).collect()
    }

    /// The clauses, and each of these numbers as one more clause.
    pub fn with_units(&self, units: &[i32]) -> Dimacs {
        let mut text = format!("p cnf {} {}\n", self.variables, self.count + units.len()).into_bytes();
        text.extend_from_slice(&self.text[self.body..]);
        for unit in units {
            text.extend_from_slice(format!("{unit} 0\n").as_bytes());
        }
        Dimacs::new(text)
    }

    /// The setting of an assignment. A variable that the solver leaves out may be either: no.
    pub fn setting(&self, numbers: &[i32]) -> Vec<u8> {
        let mut setting = vec![0; self.variables];
        for &number in numbers.iter().filter(|&&n| n > 0) {
            setting[number as usize - 1] = 1;
        }
        setting
    }
}
