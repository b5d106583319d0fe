//! Wild traces: any call at any address, most of them where something happens.

use super::{Draft, random::Random};
use crate::{refusal, trace::Record};

/// Registers that take a write or answer a read.
const REGISTERS: [u16; 42] = [
    0x5100, 0x5101, 0x5102, 0x5103, 0x5104, 0x5105, 0x5106, 0x5107, 0x5113, 0x5114, 0x5115, 0x5116,
    0x5117, 0x5120, 0x5121, 0x5122, 0x5123, 0x5124, 0x5125, 0x5126, 0x5127, 0x5128, 0x5129, 0x512A,
    0x512B, 0x5130, 0x5200, 0x5201, 0x5202, 0x5203, 0x5204, 0x5205, 0x5206, 0x5207, 0x5209, 0x5001,
    0x5005, 0x5108, 0x5112, 0x512C, 0x5131, 0x520A,
];

const AUDIO: [u16; 9] = [
    0x5000, 0x5002, 0x5003, 0x5004, 0x5006, 0x5007, 0x5010, 0x5011, 0x5015,
];

/// First and last addresses of ranges.
const CPU_EDGES: [u16; 18] = [
    0x0000, 0x4FFF, 0x5BFF, 0x5C00, 0x5FFF, 0x6000, 0x7FFF, 0x8000, 0x9FFF, 0xA000, 0xBFFF, 0xC000,
    0xDFFF, 0xE000, 0xFFF9, 0xFFFA, 0xFFFB, 0xFFFF,
];
const PPU_EDGES: [u16; 20] = [
    0x0000, 0x03FF, 0x0FFF, 0x1000, 0x1FFF, 0x2000, 0x2001, 0x23BF, 0x23C0, 0x23FF, 0x2400, 0x2FBF,
    0x2FC0, 0x2FFF, 0x3000, 0x33C0, 0x3EFF, 0x3F00, 0x3FFF, 0x4000,
];

const VALUES: [u8; 20] = [
    0x00, 0x01, 0x02, 0x03, 0x04, 0x07, 0x08, 0x18, 0x1F, 0x20, 0x3F, 0x40, 0x44, 0x50, 0x55, 0x7F,
    0x80, 0xC3, 0xE4, 0xFF,
];

/// What a wild trace keeps in mind.
struct Wild {
    last_fetch: u16,
    /// Name fetches of successive tiles still to come, so that the tile count grows.
    tiles: usize,
    /// Whether sound registers may come, each of which ends the replay.
    audio: bool,
}

pub fn trace(random: &mut Random, records: usize) -> Vec<u8> {
    let mut draft = Draft::new(records);
    let mut wild = Wild {
        last_fetch: 0x2000,
        tiles: 0,
        audio: random.once_in(4),
    };
    while !draft.full() {
        draft.add(wild.record(random));
    }
    draft.bytes
}

impl Wild {
    fn record(&mut self, random: &mut Random) -> Record {
        if self.tiles > 0 && !random.once_in(20) {
            self.tiles -= 1;
            self.last_fetch = 0x2000 | (self.last_fetch.wrapping_add(1) & 0x0FFF);
            return Record::PpuFetch(self.last_fetch);
        }
        if random.once_in(150) {
            self.tiles = 25 + random.below(25);
        }
        match random.below(100) {
            0..=5 => Record::Clock,
            6..=17 => Record::CpuRead(self.cpu_address(random, false)),
            18..=44 => {
                let addr = self.cpu_address(random, true);
                Record::CpuWrite(addr, register_value(random, addr))
            }
            45..=51 => {
                let addr = random.pick(&[0x2000, 0x2000, 0x2001, 0x2001, 0x2002, 0x2009, 0x3FF8]);
                Record::PpuRegisterWrite(addr, random.pick(&[0x00, 0x08, 0x10, 0x18, 0x20, 0xFF]))
            }
            52..=92 => {
                self.last_fetch = self.ppu_address(random);
                Record::PpuFetch(self.last_fetch)
            }
            93 => Record::Reset,
            _ => Record::PpuMemoryWrite(self.ppu_address(random), value(random)),
        }
    }

    fn cpu_address(&self, random: &mut Random, write: bool) -> u16 {
        if self.audio && random.once_in(400) {
            return random.pick(&AUDIO);
        }
        let addr = match random.below(20) {
            0..=11 => random.pick(&REGISTERS),
            12..=13 => random.pick(&CPU_EDGES),
            14..=15 => random.from_to(0x5C00, 0x5FFF),
            16..=17 => random.from_to(0x6000, 0xFFFF),
            18 => random.pick(&[0x5204, 0xFFFA, 0xFFFB]),
            _ => random.from_to(0x0000, 0xFFFF),
        };
        let sound = if write {
            refusal::audio_write(addr)
        } else {
            refusal::audio_read(addr)
        };
        if sound.is_err() { 0x5204 } else { addr }
    }

    fn ppu_address(&self, random: &mut Random) -> u16 {
        match random.below(20) {
            0..=8 => self.last_fetch,
            9..=10 => random.pick(&PPU_EDGES),
            11..=13 => random.from_to(0x2000, 0x2FFF),
            14 => random.from_to(0x23C0, 0x23FF),
            15 => random.from_to(0x3000, 0x3EFF),
            16..=18 => random.from_to(0x0000, 0x1FFF),
            _ => random.from_to(0x0000, 0xFFFF),
        }
    }
}

fn value(random: &mut Random) -> u8 {
    if random.once_in(2) {
        random.pick(&VALUES)
    } else {
        random.byte()
    }
}

/// Values under which a register does something more often than by chance.
fn register_value(random: &mut Random, addr: u16) -> u8 {
    match addr {
        0x5102 if random.once_in(2) => 0x02,
        0x5103 if random.once_in(2) => 0x01,
        0x5104 if random.once_in(2) => random.pick(&[0x00, 0x01]),
        0x5200 if random.once_in(2) => 0x80 | (random.byte() & 0x43),
        0x5203 if random.once_in(2) => random.pick(&[1, 1, 2, 3]),
        _ => value(random),
    }
}
