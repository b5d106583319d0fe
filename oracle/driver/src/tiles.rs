//! The tile count: the Rust counts on in 32 bits, the port keeps the fold of the count.

use crate::pair;
use oracle::{board::Board, cartridge::Cartridge, ppu, trace::Record};

/// The highest count that the Rust's own numbers reach to: its column adds 2 in 32 bits.
pub const REACH: u32 = 4_294_967_293;

/// What the port keeps of a count.
pub const fn fold(count: u32) -> u32 {
    if count < 42 { count } else { 42 + (count - 42) % 42 }
}

/// Where a name fetch would lead the Rust past its reach, it goes on from the fold of its count.
pub fn within_reach(board: &mut Board, record: Record) {
    if let Record::PpuFetch(addr @ 0x2000..=0x2FFF) = record {
        let count = &mut board.exrom.ppu_status.tile_number;
        if *count >= REACH && !ppu::is_attr(addr) {
            *count = fold(*count);
        }
    }
}

/// The starts: every count from 0 to 200, and the last hundred and one of the Rust's reach.
pub fn starts() -> impl Iterator<Item = u32> {
    (0..=200).chain(REACH - 100..=REACH)
}

/// From one count, in frame with the split on: on either side, with nametable use and in attribute mode, at the split tile that the first name fetch comes to and at
/// another; 90 name fetches with no line between them, so that the kept count turns over, each with an attribute and a pattern fetch. The number of calls.
pub fn compare(start: u32) -> Result<u64, String> {
    let mut calls = 0;
    for (mode, control) in [(0, 0x80), (0, 0xC0), (1, 0x80), (1, 0xC0)] {
        for tile in [((start % 42 + 3) % 42).min(31) as u8, 5] {
            let cartridge = Cartridge {
                chr: 65_536,
                fill: 11,
                ..Cartridge::default()
            };
            let mut pair = pair::load(cartridge)?.ok_or("a good cartridge was refused")?;
            pair.set_tiles(start);
            pair.set_line(7);
            let mut records = vec![
                Record::PpuRegisterWrite(0x2000, 0x20),
                Record::PpuRegisterWrite(0x2001, 0x18),
                Record::CpuWrite(0x5104, mode),
                Record::CpuWrite(0x5120, 5),
                Record::CpuWrite(0x5128, 3),
                Record::CpuWrite(0x5200, control | tile),
                Record::CpuWrite(0x5201, 11),
            ];
            for fetch in 0..90u16 {
                let pattern = fetch * 16 % 0x2000;
                records.extend([0x2000 + fetch, 0x23C0 + fetch % 64, pattern].map(Record::PpuFetch));
            }
            for record in records {
                calls += 1;
                pair.call(record).map_err(|why| format!("mode {mode}, $5200 = {:02X}: {why}", control | tile))?;
            }
            pair.shown()?;
        }
    }
    Ok(calls)
}
