//! Lent buffers in which every byte and number that was touched shows.

use crate::random::Random;
use nesskettle_reference::vectors::{patterned_bytes, patterned_numbers};
use nesskettle_reference::Refusal;

/// How much stands before and after the lent part.
const GUARD: usize = 64;

/// A lent buffer between two guards, all filled with a pattern.
pub struct Lent<T> {
    all: Vec<T>,
    before: Vec<T>,
}

impl Lent<u8> {
    pub fn bytes(length: usize) -> Self {
        Lent::guarded(patterned_bytes((length + 2 * GUARD) as u64))
    }
}

impl Lent<u32> {
    pub fn numbers(length: usize) -> Self {
        Lent::guarded(patterned_numbers((length + 2 * GUARD) as u64))
    }
}

impl<T: Clone + PartialEq> Lent<T> {
    fn guarded(all: Vec<T>) -> Self {
        Lent {
            before: all.clone(),
            all,
        }
    }

    /// The part to lend.
    pub fn lend(&mut self) -> &mut [T] {
        let end = self.all.len() - GUARD;
        &mut self.all[GUARD..end]
    }

    /// Is it the front, and after it everything as before, the guards too?
    pub fn holds(&self, front: &[T]) -> bool {
        let end = GUARD + front.len();
        self.all[..GUARD] == self.before[..GUARD]
            && self.all[GUARD..end] == *front
            && self.all[end..] == self.before[end..]
    }
}

/// A length around the needed one: one short, exact, longer, or nothing of the kind.
pub fn length_around(random: &mut Random, needed: u64) -> usize {
    let needed = needed as usize;
    match random.below(8) {
        0 => needed.saturating_sub(1),
        1 => needed + random.below(100),
        2 => random.between(0, needed),
        3 => 0,
        _ => needed,
    }
}

/// What a call that writes leaves in an output that is large enough.
pub fn left(mut call: impl FnMut(&mut [u8]) -> Result<usize, Refusal>) -> Result<Vec<u8>, Refusal> {
    let mut output = Vec::new();
    if let Err(refusal) = call(&mut output) {
        output = vec![0; refusal.needed as usize];
    }
    let length = call(&mut output)?;
    output.truncate(length);
    Ok(output)
}
