//! Which of a state's words is which field. `docs/HOST.md` has the table, with the most that each may be.

/// How many words a state has.
pub const COUNT: usize = 144;

// The scanline detector.
/// The previous address is there.
pub const PREVIOUS_THERE: usize = 0;
pub const PREVIOUS_ADDRESS: usize = 1;
pub const MATCH_COUNT: usize = 2;
pub const READING: usize = 3;
pub const IDLE_COUNT: usize = 4;
pub const IN_FRAME: usize = 5;
pub const LINE_COUNTER: usize = 6;
pub const PENDING: usize = 7;
pub const IRQ_ENABLED: usize = 8;
/// $5203.
pub const IRQ_LINE: usize = 9;

// What else a fetch changes.
pub const IN_REGION: usize = 10;
pub const TILE_ADDRESS: usize = 11;
pub const TILE_COUNT: usize = 12;
pub const TILE_CACHE: usize = 13;
pub const BACKGROUND_SET: usize = 14;
/// The last CHR write was to the background.
pub const BACKGROUND_WRITTEN: usize = 15;

// Flags, 0 or 1.
pub const LOADED: usize = 16;
pub const CHR_WRITABLE: usize = 17;
/// $5104 was written.
pub const EXRAM_CHOSEN: usize = 18;
pub const SPLIT_ENABLED: usize = 19;
pub const SPLIT_RIGHT: usize = 20;
pub const SPRITES_8X16: usize = 21;
pub const RENDERING: usize = 22;

pub const MIRRORING: usize = 23;

// Registers.
pub const PRG_MODE: usize = 24;
pub const CHR_MODE: usize = 25;
/// $5102.
pub const PROTECT_A: usize = 26;
/// $5103.
pub const PROTECT_B: usize = 27;
pub const EXRAM_MODE: usize = 28;
/// $5105.
pub const NAMETABLES: usize = 29;
pub const FILL_TILE: usize = 30;
pub const FILL_ATTRIBUTE: usize = 31;
pub const MULTIPLICAND: usize = 32;
pub const MULTIPLIER: usize = 33;

// The split.
/// $5200.
pub const SPLIT_MODE: usize = 34;
pub const SPLIT_TILE: usize = 35;
/// $5201.
pub const SPLIT_SCROLL: usize = 36;
/// $5202.
pub const SPLIT_BANK: usize = 37;

/// `chr_hi` / 256.
pub const CHR_HI: usize = 38;

// Lengths as load took them.
/// PRG-ROM in banks of 8 KiB, less one.
pub const PRG_BANKS_LESS_ONE: usize = 39;
/// CHR in KiB.
pub const CHR_KIB: usize = 40;
/// PRG-RAM in KiB.
pub const RAM_KIB: usize = 41;

/// $5113 to $5117, five words.
pub const PRG_BANKS: usize = 42;
/// $5120 to $512B with the last four twice, 16 words.
pub const CHR_BANKS: usize = 47;
/// 0.
pub const SPARE: usize = 63;
/// The PRG table, 64 page words.
pub const PRG_PAGES: usize = 64;
/// The CHR table, 16 page words.
pub const CHR_PAGES: usize = 128;
