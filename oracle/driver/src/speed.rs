//! What is timed: three mixes of calls, each on a cartridge that games have.

use oracle::{
    cartridge::Cartridge,
    generate::{self, random::Random},
    trace::{Reader, Record},
};

pub struct Mix {
    pub name: &'static str,
    pub cartridge: Cartridge,
    /// Traces of at most 8,192 bytes, one after the other.
    pub traces: Vec<Vec<u8>>,
    pub records: Vec<Record>,
}

pub fn median(times: &mut [f64]) -> f64 {
    times.sort_by(f64::total_cmp);
    times[times.len() / 2]
}

/// The records that a board takes, in order.
fn taken(cartridge: Cartridge, traces: &[Vec<u8>]) -> (Vec<Vec<u8>>, Vec<Record>) {
    let mut board = oracle::board::Board::load(cartridge).expect("it loads");
    let mut records = Vec::new();
    let mut kept = Vec::new();
    for trace in traces {
        let mut reader = Reader::new(trace).expect("short enough");
        let mut bytes = Vec::new();
        while let Ok(Some(record)) = reader.next_record() {
            if board.call(record).is_ok() {
                record.write(&mut bytes);
                records.push(record);
            }
        }
        kept.push(bytes);
    }
    (kept, records)
}

/// Reads and writes of the board's registers, with some fetches between.
fn registers(random: &mut Random) -> Vec<u8> {
    let mut bytes = Vec::new();
    while bytes.len() < 8_180 {
        let addr = random.pick(&[0x5100, 0x5101, 0x5105, 0x5113, 0x5114, 0x5115, 0x5116, 0x5117, 0x5120, 0x5123, 0x5127, 0x5128, 0x512B, 0x5203, 0x5204, 0x5205, 0x5206]);
        let record = match random.below(8) {
            0 | 1 => Record::CpuRead(addr),
            2 => Record::PpuFetch(random.from_to(0, 0x2FFF)),
            _ => Record::CpuWrite(addr, random.byte()),
        };
        record.write(&mut bytes);
    }
    bytes
}

/// A screen's fetches: lines of name, attribute and pattern fetches, a clock for each three.
fn lines(random: &mut Random) -> Vec<u8> {
    let mut bytes = Vec::new();
    let mut records = vec![Record::PpuRegisterWrite(0x2001, 0x18), Record::CpuWrite(0x5203, 40), Record::CpuWrite(0x5204, 0x80)];
    for line in 0..6u16 {
        for tile in 0..34u16 {
            let name = 0x2000 + (line / 8 * 32 + tile) % 0x3C0;
            let pattern = random.from_to(0, 0x0FFF) & 0x0FF7;
            records.extend([Record::PpuFetch(name), Record::Clock, Record::PpuFetch(0x23C0 + tile / 4), Record::PpuFetch(pattern), Record::Clock, Record::PpuFetch(pattern + 8)]);
        }
        for _ in 0..3 {
            records.push(Record::PpuFetch(0x2000 + line));
        }
        for _ in 0..38 {
            records.extend([Record::CpuRead(random.from_to(0x8000, 0xFFF0)), Record::Clock]);
        }
    }
    for record in records {
        record.write(&mut bytes);
        if bytes.len() > 8_180 {
            break;
        }
    }
    bytes
}

pub fn mixes() -> Vec<Mix> {
    let cartridge = Cartridge {
        prg: 262_144,
        chr: 262_144,
        ram: 32_768,
        fill: 3,
        ..Cartridge::default()
    };
    let mut random = Random::new(5);
    let scanlines: Vec<_> = (0..4).map(|_| lines(&mut random)).collect();
    let heavy: Vec<_> = (0..4).map(|_| registers(&mut random)).collect();
    let mixed: Vec<_> = (0..4u64).map(|seed| generate::trace("wild", seed, 2_600).expect("a kind")).collect();
    let play: Vec<_> = (0..4u64).map(|seed| generate::trace("play", seed, 2_600).expect("a kind")).collect();
    [("scanline-like", scanlines), ("register-heavy", heavy), ("mixed", mixed), ("play", play)]
        .into_iter()
        .map(|(name, traces)| {
            let (traces, records) = taken(cartridge, &traces);
            Mix {
                name,
                cartridge,
                traces,
                records,
            }
        })
        .collect()
}
