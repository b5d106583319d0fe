//! Stands in for tetanes-core's `ppu`: `Mirroring` and `is_attr`.
//!
//! Both are taken from the text of src/ppu.rs of tetanes-core 0.17.0: the enum with its values and
//! its default (lines 41-58), the function (lines 98-106) with its two constants written in place
//! (`addr::ATTR_OFFSET` of line 310, `size::NAMETABLE` of line 329).

/// Nametable Mirroring Mode
#[derive(Default, Debug, Copy, Clone, Eq, PartialEq)]
#[must_use]
pub enum Mirroring {
    /// Nametables mirrored left-to-right, giving two vertically-scrollable screens.
    Vertical = 0,
    /// Nametables mirrored top-to-bottom, giving two horizontally-scrollable screens.
    #[default]
    Horizontal = 1,
    /// All four nametables show CIRAM's first 1K bank.
    SingleScreenA = 2,
    /// All four nametables show CIRAM's second 1K bank.
    SingleScreenB = 3,
    /// Four distinct nametables, which needs 2K of RAM on the cartridge beyond the console's CIRAM.
    FourScreen = 4,
}

/// Whether a PPU address fetches a nametable attribute byte.
#[inline(always)]
#[must_use]
pub const fn is_attr(addr: u16) -> bool {
    (addr & (0x0400 - 1)) >= 0x03C0
}
