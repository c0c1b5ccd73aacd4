//! The search's design in plain Rust: one weight per clause, kept up as literals become false; unit propagation to the
//! end, the lowest unset variable, back to the latest choice whose other value is untried.

/// Literals are codes: 2x says yes to variable x, 2x + 1 says no.
pub struct Plain {
    /// 0 unset, 1 yes, 2 no.
    values: Vec<u32>,
    /// Twice the literal, and 1 for a choice whose other value is untried.
    trail: Vec<u32>,
    /// How many entries of the trail are false in their clauses.
    head: usize,
    /// For each clause the sum of 64 l + 1 over its literals l that are not false.
    weights: Vec<u32>,
    /// The clauses of each literal.
    blocks: Vec<Vec<u32>>,
    /// Whether yes is tried first.
    first: Vec<bool>,
    pub propagations: u64,
}

impl Plain {
    /// The clauses of a DIMACS text.
    pub fn new(text: &[u8], first: Vec<bool>) -> Self {
        let mut plain = Plain {
            values: vec![0; first.len()],
            trail: Vec::with_capacity(first.len()),
            head: 0,
            weights: Vec::new(),
            blocks: vec![Vec::new(); 2 * first.len()],
            first,
            propagations: 0,
        };
        let text = std::str::from_utf8(text).expect("digits");
        for line in text.lines().skip(1) {
            let number = plain.weights.len() as u32;
            let mut weight = 0;
            for word in line.split(' ') {
                let literal: i32 = word.parse().expect("a number");
                if literal == 0 {
                    break;
                }
                let code = 2 * (literal.unsigned_abs() - 1) + (literal < 0) as u32;
                let block = &mut plain.blocks[code as usize];
                if block.last() != Some(&number) {
                    block.push(number);
                    weight += 64 * code + 1;
                }
            }
            plain.weights.push(weight);
        }
        plain
    }

    /// Whether the clauses can be satisfied.
    pub fn solve(&mut self) -> bool {
        for clause in 0..self.weights.len() {
            if !self.visit(clause) {
                return false;
            }
        }
        loop {
            if !self.propagate() {
                if !self.go_back() {
                    return false;
                }
            } else {
                match self.values.iter().position(|&value| value == 0) {
                    None => return true,
                    Some(x) => self.push(2 * x as u32 + !self.first[x] as u32, 1),
                }
            }
        }
    }

    fn push(&mut self, literal: u32, mark: u32) {
        self.values[literal as usize / 2] = 1 + literal % 2;
        self.trail.push(2 * literal + mark);
    }

    /// Looks at a clause: takes its last literal, or finds it false.
    fn visit(&mut self, clause: usize) -> bool {
        let weight = self.weights[clause];
        match weight % 64 {
            0 => false,
            1 => {
                let literal = weight / 64;
                match self.values[literal as usize / 2] {
                    0 => self.push(literal, 0),
                    value => return value == 1 + literal % 2,
                }
                true
            }
            _ => true,
        }
    }

    fn propagate(&mut self) -> bool {
        while self.head < self.trail.len() {
            let literal = (self.trail[self.head] / 2) ^ 1;
            self.head += 1;
            self.propagations += 1;
            let block = std::mem::take(&mut self.blocks[literal as usize]);
            for &clause in &block {
                self.weights[clause as usize] -= 64 * literal + 1;
            }
            let good = block.iter().all(|&clause| self.visit(clause as usize));
            self.blocks[literal as usize] = block;
            if !good {
                return false;
            }
        }
        true
    }

    fn go_back(&mut self) -> bool {
        while let Some(top) = self.trail.pop() {
            let literal = top / 2;
            if self.trail.len() < self.head {
                self.head = self.trail.len();
                for &clause in &self.blocks[literal as usize ^ 1] {
                    self.weights[clause as usize] += 64 * (literal ^ 1) + 1;
                }
            }
            self.values[literal as usize / 2] = 0;
            if top % 2 == 1 {
                self.push(literal ^ 1, 0);
                return true;
            }
        }
        false
    }
}
