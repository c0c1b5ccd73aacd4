//! The slowest of the inputs that were tried for a call.

use nesskettle_trials::timing::{seconds, shown};

/// How often an input is tried that takes little time; the fastest counts.
const RUNS: usize = 5;
/// What is little time, in seconds.
const LITTLE: f64 = 0.2;

pub struct Slowest<T> {
    tried: usize,
    /// The seconds that count: of the whole call, or of a part of it where the caller says so.
    seconds: f64,
    found: Option<(String, T)>,
}

impl<T> Slowest<T> {
    pub fn new() -> Self {
        Slowest {
            tried: 0,
            seconds: 0.0,
            found: None,
        }
    }

    /// Tries an input of this name.
    pub fn attempt(&mut self, name: String, input: T, mut call: impl FnMut(&T)) {
        let time = fastest(|| call(&input));
        self.told(name, input, time);
    }

    /// An input of this name took so many seconds.
    pub fn told(&mut self, name: String, input: T, seconds: f64) {
        self.tried += 1;
        if seconds > self.seconds {
            self.seconds = seconds;
            self.found = Some((name, input));
        }
    }

    pub fn seconds(&self) -> f64 {
        self.seconds
    }

    pub fn input(&self) -> &T {
        &self.found.as_ref().expect("one was tried").1
    }

    pub fn name(&self) -> &str {
        &self.found.as_ref().expect("one was tried").0
    }

    /// The line of the call.
    pub fn print(&self, call: &str) {
        line(call, self.name(), &shown(self.seconds), self.tried);
    }
}

pub fn line(call: &str, input: &str, time: &str, tried: usize) {
    println!("{call:<12} {time:>12}  {input} (slowest of {tried})");
}

/// The seconds of a call, tried again where it takes little time.
pub fn fastest(mut call: impl FnMut()) -> f64 {
    let mut least = seconds(&mut call);
    let mut runs = 1;
    while runs < RUNS && least < LITTLE {
        least = least.min(seconds(&mut call));
        runs += 1;
    }
    least
}
