//! Cartridges: the five lengths, what load takes beside them, and the bytes at the start.

use crate::{
    memory::{Memory, Src},
    ppu::Mirroring,
};

/// What a board is loaded over.
#[derive(Debug, Clone, Copy, PartialEq, Eq)]
pub struct Cartridge {
    pub prg: usize,
    pub chr: usize,
    pub ram: usize,
    pub ciram: usize,
    pub exram: usize,
    pub chr_writable: bool,
    pub mirroring: Mirroring,
    pub fill: u8,
}

/// 01's cartridge.
impl Default for Cartridge {
    fn default() -> Self {
        Self {
            prg: 32_768,
            chr: 8_192,
            ram: 8_192,
            ciram: 2_048,
            exram: 1_024,
            chr_writable: false,
            mirroring: Mirroring::Horizontal,
            fill: 0,
        }
    }
}

/// The five buffers in the order of document 01, with the names that are printed.
pub const BUFFERS: [(Src, &str); 5] = [
    (Src::PrgRom, "PRG-ROM"),
    (Src::Chr, "CHR"),
    (Src::PrgRam, "PRG-RAM"),
    (Src::CiRam, "CIRAM"),
    (Src::ExRam, "ExRAM"),
];

/// The five mirrorings in the order of their numbers in a case file.
pub const MIRRORINGS: [(Mirroring, &str); 5] = [
    (Mirroring::Horizontal, "Horizontal"),
    (Mirroring::Vertical, "Vertical"),
    (Mirroring::SingleScreenA, "SingleScreenA"),
    (Mirroring::SingleScreenB, "SingleScreenB"),
    (Mirroring::FourScreen, "FourScreen"),
];

/// The byte at an offset of a buffer at the start.
///
/// Seed 0 is 01's: PRG-ROM holds offset / 1,024, CHR 128 + offset / 1,024, the RAMs 0, all mod 256.
/// Any other seed s gives each buffer b (its place in `BUFFERS`) at offset o
/// (o / 1,024 x 7 + o mod 1,024 x 3 + o / 256 + o / 65,536 x 37 + s x 29 + b x 53) mod 256, in whole
/// numbers. The part of 37 tells pages apart that lie 256 pages from each other.
pub fn fill_byte(seed: u8, buffer: usize, offset: usize) -> u8 {
    let byte = match (seed, buffer) {
        (0, 0) => offset / 1024,
        (0, 1) => 128 + offset / 1024,
        (0, _) => 0,
        (seed, _) => {
            let page = offset / 1024 * 7 + offset % 1024 * 3 + offset / 256;
            page + offset / 65_536 * 37 + usize::from(seed) * 29 + buffer * 53
        }
    };
    (byte % 256) as u8
}

/// Fill every buffer.
pub fn fill(memory: &mut Memory, seed: u8) {
    for (buffer, (src, _)) in BUFFERS.into_iter().enumerate() {
        for (offset, byte) in memory.region_mut(src).iter_mut().enumerate() {
            *byte = fill_byte(seed, buffer, offset);
        }
    }
}

pub fn mirroring_name(mirroring: Mirroring) -> &'static str {
    let found = MIRRORINGS.into_iter().find(|(m, _)| *m == mirroring);
    found.expect("one of the five").1
}

impl Cartridge {
    /// Set one part from its name and value: `prg`, `chr`, `ram`, `mirroring`, `fill`; `chr-ram`
    /// has no value.
    pub fn set(&mut self, name: &str, value: &str) -> Result<(), String> {
        let number = || {
            value
                .parse::<usize>()
                .map_err(|_| format!("{name}: a number, not '{value}'"))
        };
        match name {
            "prg" => self.prg = number()?,
            "chr" => self.chr = number()?,
            "ram" => self.ram = number()?,
            "chr-ram" => self.chr_writable = true,
            "fill" => {
                self.fill = u8::try_from(number()?).map_err(|_| "fill: 0 to 255".to_string())?
            }
            "mirroring" => {
                let found = MIRRORINGS.into_iter().find(|(_, n)| *n == value);
                self.mirroring = found.ok_or(format!("no mirroring '{value}'"))?.0;
            }
            _ => return Err(format!("no part '{name}' of a cartridge")),
        }
        Ok(())
    }

    /// Read `-`, or words such as `prg=262144 chr-ram fill=7`.
    pub fn parse(text: &str) -> Result<Self, String> {
        let mut cartridge = Self::default();
        for word in text.split_whitespace().filter(|word| *word != "-") {
            let (name, value) = word.split_once('=').unwrap_or((word, ""));
            cartridge.set(name, value)?;
        }
        Ok(cartridge)
    }
}
