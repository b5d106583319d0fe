//! Stands in for tetanes-core's `apu::dmc`: a sample channel that plays nothing.
//!
//! `Exrom::irq_pending` looks at `irq_pending` here. In the console it rises only after a $5010
//! write has set `irq_enabled`; refusal 6 takes no such write, so it is false there as it is here.

use crate::common::NesRegion;

#[derive(Debug, Clone)]
pub struct Dmc {
    pub irq_enabled: bool,
    pub irq_pending: bool,
    pub dma_pending: bool,
}

impl Dmc {
    pub const fn new(_region: NesRegion) -> Self {
        Self {
            irq_enabled: false,
            irq_pending: false,
            dma_pending: false,
        }
    }

    pub fn write_output(&mut self, _val: u8) {}

    pub fn clock(&mut self) {}

    pub fn set_region(&mut self, _region: NesRegion) {}

    pub const fn level(&self) -> u8 {
        0
    }
}
