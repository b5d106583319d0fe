//! Stands in for tetanes-core's `cart`: what `Exrom::load` takes from a cartridge.
//!
//! `load` reads the header's mirroring, the region and the length of PRG-ROM, and maps pages in
//! `memory`. In the console the header names three of the five mirrorings; document 01 gives load
//! all five, so the value is stored here as it is given.

use crate::{common::NesRegion, memory::Memory, ppu::Mirroring};

pub struct Cart {
    pub region: NesRegion,
    pub memory: Memory,
    pub header_mirroring: Mirroring,
}

impl Cart {
    /// The header's mirroring.
    pub fn mirroring(&self) -> Mirroring {
        self.header_mirroring
    }
}
