//! Steps 3 and 4: propositional variables, instances, counts, and the DIMACS text.

use crate::flattening::{FlatClause, Shape};
use crate::problem::Problem;
use crate::{symmetry, Symmetry};
use std::ops::Range;

/// Where the propositional variables of each symbol begin, at one size. Variables are counted from 0 here; the texts
/// count from 1.
pub struct Numbering {
    pub size: usize,
    /// The declared ones and, after all predicates, the helpers.
    pub function_base: Vec<usize>,
    pub predicate_base: Vec<usize>,
    /// The variables of predicates.
    pub of_predicates: Range<usize>,
    /// V.
    pub variables: usize,
}

impl Numbering {
    pub fn new(problem: &Problem, size: usize) -> Self {
        let mut variables = 0;
        let mut base = |count: usize| {
            variables += count;
            variables - count
        };
        let functions = problem.functions.iter();
        let mut function_base: Vec<usize> = functions.map(|f| base(power(size, f.arity) * size)).collect();
        let predicates_start = base(0);
        let predicates = problem.predicates.iter();
        let predicate_base = predicates.map(|p| base(power(size, p.arity))).collect();
        let of_predicates = predicates_start..base(0);
        function_base.extend((0..problem.helpers).map(|_| base(size)));
        Numbering {
            size,
            function_base,
            predicate_base,
            of_predicates,
            variables,
        }
    }

    /// The values of the declared symbols' cells under a setting, or nothing where a function cell, a helper's too, has no
    /// result or several.
    pub fn cells(&self, problem: &Problem, yes: impl Fn(usize) -> bool) -> Option<Vec<u8>> {
        let result = |first: usize| {
            let mut results = (0..self.size).filter(|d| yes(first + d));
            let result = results.next()?;
            results.next().is_none().then_some(result as u8 + 1)
        };
        let mut cells = Vec::new();
        for (function, base) in problem.functions.iter().zip(&self.function_base) {
            for cell in 0..power(self.size, function.arity) {
                cells.push(result(base + cell * self.size)?);
            }
        }
        for (predicate, base) in problem.predicates.iter().zip(&self.predicate_base) {
            let count = power(self.size, predicate.arity);
            cells.extend((0..count).map(|cell| yes(base + cell) as u8));
        }
        for &helper in &self.function_base[problem.functions.len()..] {
            result(helper)?;
        }
        Some(cells)
    }
}

/// The counts before dropping at one size: I, L and V.
pub struct Counted {
    pub instances: u64,
    pub literals: u64,
    pub variables: u64,
}

impl Counted {
    pub fn new(problem: &Problem, size: usize, symmetry: Symmetry) -> Self {
        let s = size as u64;
        let (mut instances, mut literals) = match symmetry {
            Symmetry::Kept => (0, 0),
            Symmetry::Reduced => symmetry::counts(problem, size),
        };
        for arity in problem.function_arities() {
            let cells = s.pow(arity as u32);
            instances += cells * (1 + s * (s - 1) / 2);
            literals += cells * s * s;
        }
        for clause in &problem.flat {
            let choices = s.pow(clause.variables as u32);
            instances += choices;
            literals += choices * clause.literals.len() as u64;
        }
        let variables = Numbering::new(problem, size).variables as u64;
        Counted {
            instances,
            literals,
            variables,
        }
    }

    /// W.
    pub fn work(&self) -> u64 {
        self.literals + 2 * self.instances + 8 * self.variables + 16
    }
}

/// Hands out every written clause in order, as numbers from 1, negative ones negated.
pub fn for_each_clause(problem: &Problem, size: usize, symmetry: Symmetry, mut take: impl FnMut(&[i32])) {
    let numbering = Numbering::new(problem, size);
    let mut clause = Vec::new();
    for (arity, base) in problem.function_arities().zip(&numbering.function_base) {
        for cell in 0..power(size, arity) {
            let first = (base + cell * size + 1) as i32;
            let results = first..first + size as i32;
            clause.clear();
            clause.extend(results.clone());
            take(&clause);
            for d in results.clone() {
                for e in d + 1..results.end {
                    take(&[-d, -e]);
                }
            }
        }
    }
    if symmetry == Symmetry::Reduced {
        symmetry::for_each_clause(problem, &numbering, &mut take);
    }
    for flat in &problem.flat {
        Instances::new(flat, &numbering).for_each(&mut take);
    }
}

/// The instances of one clause. The number of each literal is a sum over the values of its variables, so that it moves
/// by a fixed step where a variable moves by one.
struct Instances {
    size: usize,
    /// Per literal that is no variable equality: its sign, and its number where every value is the first.
    signs: Vec<i32>,
    start: Vec<i32>,
    /// Per variable and literal: how far the number moves.
    steps: Vec<Vec<i32>>,
    equalities: Vec<(usize, usize)>,
}

impl Instances {
    fn new(flat: &FlatClause, numbering: &Numbering) -> Self {
        let size = numbering.size;
        let mut instances = Instances {
            size,
            signs: Vec::new(),
            start: Vec::new(),
            steps: vec![Vec::new(); flat.variables],
            equalities: Vec::new(),
        };
        for literal in &flat.literals {
            let (base, digits) = match &literal.shape {
                Shape::VariableEquality(a, b) => {
                    instances.equalities.push((*a, *b));
                    continue;
                }
                Shape::Predicate(p, arguments) => (numbering.predicate_base[*p], arguments.clone()),
                Shape::FunctionResult(f, arguments, result) => {
                    let digits = [arguments.as_slice(), &[*result]].concat();
                    (numbering.function_base[*f], digits)
                }
            };
            instances.push(literal.positive, base, &digits);
        }
        instances
    }

    /// One more literal: the number from `base` whose digits are the values of these variables, the last fastest.
    fn push(&mut self, positive: bool, base: usize, digits: &[usize]) {
        self.signs.push(if positive { 1 } else { -1 });
        self.start.push(base as i32 + 1);
        self.steps.iter_mut().for_each(|steps| steps.push(0));
        let mut weight = 1;
        for &variable in digits.iter().rev() {
            *self.steps[variable].last_mut().expect("just pushed") += weight;
            weight *= self.size as i32;
        }
    }

    /// Hands out the instances that are kept, the last variable fastest.
    fn for_each(&self, take: &mut impl FnMut(&[i32])) {
        let mut values = vec![0; self.steps.len()];
        let mut numbers = self.start.clone();
        let mut clause = vec![0; numbers.len()];
        loop {
            if self.equalities.iter().all(|&(a, b)| values[a] != values[b]) {
                for ((out, number), sign) in clause.iter_mut().zip(&numbers).zip(&self.signs) {
                    *out = number * sign;
                }
                take(&clause);
            }
            if !self.step(&mut values, &mut numbers) {
                return;
            }
        }
    }

    /// The next choice of values, if there is one.
    fn step(&self, values: &mut [usize], numbers: &mut [i32]) -> bool {
        for (value, steps) in values.iter_mut().zip(&self.steps).rev() {
            if *value + 1 < self.size {
                *value += 1;
                numbers.iter_mut().zip(steps).for_each(|(n, d)| *n += d);
                return true;
            }
            let back = *value as i32;
            *value = 0;
            numbers.iter_mut().zip(steps).for_each(|(n, d)| *n -= d * back);
        }
        false
    }
}

/// The text that Write leaves.
pub fn dimacs(problem: &Problem, size: usize, symmetry: Symmetry) -> Vec<u8> {
    let mut body = Vec::new();
    let mut count = 0;
    for_each_clause(problem, size, symmetry, |clause| {
        count += 1;
        for &number in clause {
            if number < 0 {
                body.push(b'-');
            }
            put_decimal(number.unsigned_abs(), &mut body);
            body.push(b' ');
        }
        body.extend_from_slice(b"0\n");
    });
    let variables = Numbering::new(problem, size).variables;
    let mut text = format!("p cnf {variables} {count}\n").into_bytes();
    text.append(&mut body);
    text
}

fn put_decimal(mut number: u32, out: &mut Vec<u8>) {
    let mut digits = [0; 10];
    let mut at = digits.len();
    loop {
        at -= 1;
        digits[at] = b'0' + (number % 10) as u8;
        number /= 10;
        if number == 0 {
            break;
        }
    }
    out.extend_from_slice(&digits[at..]);
}

pub fn power(size: usize, exponent: usize) -> usize {
    size.pow(exponent as u32)
}
