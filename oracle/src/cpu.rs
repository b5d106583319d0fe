//! Stands in for tetanes-core's `cpu`: the clock rate that `Exrom::clock` asks for.
//!
//! The rate sets how often the silent pulse channels take a half frame, which no answer shows.

use crate::common::NesRegion;

pub struct Cpu;

impl Cpu {
    pub const fn region_clock_rate(_region: NesRegion) -> f32 {
        1_789_772.7
    }
}
