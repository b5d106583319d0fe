//! Stands in for tetanes-core's `mapper`: the trait that the board implements.
//!
//! `Map` and `MapperOps` carry the names and defaults of src/mapper.rs of tetanes-core 0.17.0 that
//! the board overrides or the judge calls. The board overrides every one of them, so no default
//! runs. `Mapper` holds the one board; `MapperOps` tells the console what to call, and the judge
//! calls everything.

use crate::{
    common::{NesRegion, ResetKind},
    memory::Memory,
    ppu::Mirroring,
};
use bitflags::bitflags;

// Given: no tool may format it.
#[rustfmt::skip]
pub mod m005_exrom;

use m005_exrom::Exrom;

bitflags! {
    /// Which of a board's optional hooks apply.
    #[derive(Default, Debug, Copy, Clone, PartialEq, Eq)]
    #[must_use]
    pub struct MapperOps: u8 {
        const CLOCKED = 1 << 0;
        const IRQ = 1 << 1;
        const AUDIO = 1 << 2;
        const DMA = 1 << 3;
        const WATCHES_PPU_BUS = 1 << 4;
        const SERVES_PRG_READS = 1 << 5;
        const SERVES_CHR_READS = 1 << 6;
    }
}

/// Errors that mappers can return while loading. This board returns none.
#[derive(Debug)]
pub enum Error {}

/// The loaded board.
pub struct Mapper(pub Exrom);

impl From<Exrom> for Mapper {
    fn from(board: Exrom) -> Self {
        Self(board)
    }
}

/// What a board does for the console.
pub trait Map {
    fn mapper_ops(&self) -> MapperOps {
        MapperOps::empty()
    }

    fn ppu_write(&mut self, _addr: u16, _val: u8) {}

    fn irq_pending(&self) -> bool {
        false
    }

    fn clear_dma_pending(&mut self) {}

    fn dma_pending(&self) -> bool {
        false
    }

    fn mirroring(&self) -> Mirroring;

    fn write_register(&mut self, _memory: &mut Memory, _addr: u16, _val: u8) {}

    fn prg_read(&mut self, _addr: u16) -> Option<u8> {
        None
    }

    fn prg_peek(&self, _addr: u16) -> Option<u8> {
        None
    }

    fn chr_read(&mut self, _memory: &mut Memory, _addr: u16) -> Option<u8> {
        None
    }

    fn chr_peek(&self, _memory: &Memory, _addr: u16) -> Option<u8> {
        None
    }

    fn chr_peek_spr(&self, _memory: &Memory, _addr: u16) -> Option<u8> {
        None
    }

    fn update_banks(&mut self, _memory: &mut Memory) {}

    fn clock(&mut self) {}

    fn reset(&mut self, _kind: ResetKind) {}

    fn region(&self) -> NesRegion {
        NesRegion::default()
    }

    fn set_region(&mut self, _region: NesRegion) {}

    fn output(&self) -> f32 {
        0.0
    }
}
