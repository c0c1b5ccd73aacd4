//! Buffers as long as a call says that it needs, and the searches that are lent them.

use nesskettle::{FindOptions, Reason, Refusal, Search};

/// The text of a call that writes one: called once to be told the length, and once more.
pub fn text(mut call: impl FnMut(&mut [u8]) -> Result<usize, Refusal>) -> Result<Vec<u8>, Refusal> {
    let mut output = Vec::new();
    loop {
        match call(&mut output) {
            Err(refusal) if refusal.reason == Reason::OutputTooShort => output = vec![0; refusal.needed as usize],
            Err(refusal) => return Err(refusal),
            Ok(length) => {
                output.truncate(length);
                return Ok(output);
            }
        }
    }
}

/// Which of the two searches.
#[derive(Clone, Copy, Debug, PartialEq, Eq)]
pub enum Engine {
    Clauses(FindOptions),
    Plain,
}

impl Engine {
    /// With what is left of the allowance after so many choices.
    fn after(self, choices: u64) -> Engine {
        match self {
            Engine::Clauses(options) => Engine::Clauses(FindOptions {
                allowance: options.allowance - choices,
                ..options
            }),
            Engine::Plain => Engine::Plain,
        }
    }

    fn find(self, sheet: &[u8], low: u64, high: u64, work: &mut [u32], output: &mut [u8]) -> Result<Search, Refusal> {
        match self {
            Engine::Clauses(options) => nesskettle::find(sheet, low, high, options, work, output),
            Engine::Plain => nesskettle::find_plain(sheet, low, high, output),
        }
    }
}

/// Work area and output of a search.
pub struct Room {
    engine: Engine,
    work: Vec<u32>,
    pub output: Vec<u8>,
}

impl Room {
    /// The room that a search up to `high` needs. No size is searched: each call here lends too little.
    pub fn new(engine: Engine, sheet: &[u8], low: u64, high: u64) -> Result<Room, Refusal> {
        let mut room = Room {
            engine,
            work: Vec::new(),
            output: Vec::new(),
        };
        loop {
            let refusal = match engine.find(sheet, low, high, &mut room.work, &mut []) {
                Err(refusal) => refusal,
                Ok(_) => return Ok(room),
            };
            match refusal.reason {
                Reason::WorkTooShort => room.work = vec![0; refusal.needed as usize],
                Reason::OutputTooShort => {
                    room.output = vec![0; refusal.needed as usize];
                    return Ok(room);
                }
                _ => return Err(refusal),
            }
        }
    }

    pub fn find(&mut self, sheet: &[u8], low: u64, high: u64) -> Result<Search, Refusal> {
        self.find_after(0, sheet, low, high)
    }

    /// The search where so many of the choices that are allowed were made before.
    pub fn find_after(&mut self, made: u64, sheet: &[u8], low: u64, high: u64) -> Result<Search, Refusal> {
        let engine = self.engine.after(made);
        engine.find(sheet, low, high, &mut self.work, &mut self.output)
    }
}
