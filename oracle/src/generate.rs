//! Generates traces from a seed alone: `play` as a console and a game make them, `wild` of any
//! calls, `damaged` with errors in the bytes.

pub mod damaged;
mod game;
pub mod play;
pub mod random;
pub mod wild;

use crate::{
    cartridge::{Cartridge, MIRRORINGS},
    cases::Case,
    trace::{LONGEST, Record},
};
use random::Random;

/// A trace of the kind; none if there is no such kind.
pub fn trace(kind: &str, seed: u64, records: usize) -> Option<Vec<u8>> {
    let mut random = Random::new(seed);
    match kind {
        "play" => Some(play::trace(&mut random, records)),
        "wild" => Some(wild::trace(&mut random, records)),
        "damaged" => Some(damaged::trace(&mut random, records)),
        _ => None,
    }
}

/// Cases of the kind, each on a cartridge of its own; none if there is no such kind.
pub fn cases(kind: &str, seed: u64, count: u64, records: usize) -> Option<Vec<Case>> {
    let mut random = Random::new(seed);
    let mut case = |number| {
        let cartridge = cartridge(&mut random);
        Some(Case {
            name: format!("{kind} {number}"),
            cartridge,
            trace: trace(kind, random.next(), records)?,
            counters: None,
            peeks: Vec::new(),
            words: None,
        })
    };
    (0..count).map(&mut case).collect()
}

/// A cartridge that loads: lengths at the edges, between them, and those that games have.
fn cartridge(random: &mut Random) -> Cartridge {
    let prg = random.pick(&[1, 2, 3, 4, 5, 16, 32, 128]);
    let chr = random.pick(&[0, 1, 3, 8, 8, 9, 64, 128, 1_024]);
    let ram = random.pick(&[0, 1, 3, 8, 8, 9, 16, 24, 64]);
    Cartridge {
        prg: prg * 8_192,
        chr: chr * 1_024,
        ram: ram * 1_024,
        chr_writable: random.once_in(3),
        mirroring: random.pick(&MIRRORINGS).0,
        fill: random.byte(),
        ..Cartridge::default()
    }
}

/// A trace in the making: at most so many records, and never longer than a trace may be.
pub struct Draft {
    pub bytes: Vec<u8>,
    records_left: usize,
    full: bool,
}

impl Draft {
    pub fn new(records: usize) -> Self {
        Self {
            bytes: Vec::new(),
            records_left: records,
            full: records == 0,
        }
    }

    pub const fn full(&self) -> bool {
        self.full
    }

    /// Add a record if it fits; tell whether it did.
    pub fn add(&mut self, record: Record) -> bool {
        let length = self.bytes.len();
        if self.full {
            return false;
        }
        record.write(&mut self.bytes);
        if self.bytes.len() > LONGEST {
            self.bytes.truncate(length);
            self.full = true;
            return false;
        }
        self.records_left -= 1;
        self.full = self.records_left == 0;
        true
    }
}
