//! How often each outcome came up, so that a generator that no longer reaches one is seen.

use std::collections::BTreeMap;

#[derive(Default)]
pub struct Tally(BTreeMap<String, usize>);

impl Tally {
    /// Counts the refusal with this number, or the outcome where it is 0.
    pub fn add(&mut self, outcome: &str, reason: u32) {
        let key = if reason > 0 {
            format!("{reason}")
        } else {
            outcome.to_string()
        };
        *self.0.entry(key).or_default() += 1;
    }

    /// Each of these came up, at least so often.
    pub fn covers(&self, least: usize, outcomes: &[&str]) {
        println!("{:?}", self.0);
        for &outcome in outcomes {
            let times = self.0.get(outcome).copied().unwrap_or(0);
            assert!(times >= least, "{outcome} came up {times} times only: {:?}", self.0);
        }
    }
}
