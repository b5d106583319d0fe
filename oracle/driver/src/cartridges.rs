//! Random cartridges of every length class that load takes, those at the edges often.

use oracle::{
    cartridge::{Cartridge, MIRRORINGS},
    generate::random::Random,
};

/// A cartridge that loads.
pub fn good(random: &mut Random) -> Cartridge {
    let prg = match random.below(3) {
        0 => random.pick(&[1, 2, 3, 4, 127, 128]),
        _ => 1 + random.below(32),
    };
    let chr = match random.below(4) {
        0 => random.pick(&[0, 1, 2, 7, 8, 9, 1_023, 1_024]),
        1 => random.below(1_025),
        _ => random.below(129),
    };
    let ram = match random.below(3) {
        0 => random.pick(&[0, 1, 7, 8, 9, 63, 64]),
        _ => random.below(65),
    };
    Cartridge {
        prg: prg * 8_192,
        chr: chr * 1_024,
        ram: ram * 1_024,
        chr_writable: random.once_in(2),
        mirroring: random.pick(&MIRRORINGS).0,
        fill: random.byte(),
        ..Cartridge::default()
    }
}

/// A cartridge with one length that load may refuse.
pub fn bad(random: &mut Random) -> Cartridge {
    let mut c = good(random);
    match random.below(5) {
        0 => c.prg = random.pick(&[0, 1, 4_096, 8_191, 8_193, 12_288, 1_048_577, 1_056_768]),
        1 => c.chr = random.pick(&[1, 1_023, 1_025, 8_191, 1_048_577, 1_049_600]),
        2 => c.ram = random.pick(&[1, 1_023, 1_025, 65_535, 65_537, 66_560]),
        3 => c.ciram = random.pick(&[0, 1_024, 2_047, 2_049, 4_096]),
        _ => c.exram = random.pick(&[0, 1_023, 1_025, 2_048]),
    }
    c
}
