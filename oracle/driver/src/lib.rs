//! Both boards over the same cartridge, and what is compared between them.

pub mod breaks;
pub mod cartridges;
pub mod pair;
pub mod replays;
pub mod speed;
pub mod tiles;
