//! Refusals: the numbers of document 01 and the tests behind them.
//!
//! 4 BUFFERS and 5 STATE are about lent buffers and a state handed in. The Rust has neither, so
//! they have no test here.

use crate::{cartridge::Cartridge, mapper::m005_exrom::Exrom};

/// Why a call is refused, with 01's number.
#[derive(Debug, Clone, Copy, PartialEq, Eq)]
#[repr(u8)]
pub enum Refusal {
    Prg = 1,
    Chr = 2,
    Ram = 3,
    Audio = 6,
    Counter = 7,
    Kind = 9,
    Number = 10,
    Length = 11,
}

impl Refusal {
    pub const fn number(self) -> u8 {
        self as u8
    }
}

/// Highest line counter that a state may hold.
pub const LINE_LIMIT: u16 = 65_279;

fn refuse_if(refused: bool, refusal: Refusal) -> Result<(), Refusal> {
    if refused { Err(refusal) } else { Ok(()) }
}

/// 1, 2, 3: the lengths at load.
pub fn load(cartridge: &Cartridge) -> Result<(), Refusal> {
    let whole = |length: usize, part: usize, least: usize, most: usize| {
        length.is_multiple_of(part) && (least..=most).contains(&length)
    };
    let c = cartridge;
    refuse_if(!whole(c.prg, 8_192, 8_192, 1_048_576), Refusal::Prg)?;
    refuse_if(!whole(c.chr, 1_024, 0, 1_048_576), Refusal::Chr)?;
    refuse_if(
        !whole(c.ram, 1_024, 0, 65_536) || c.ciram != 2_048 || c.exram != 1_024,
        Refusal::Ram,
    )
}

/// 6: a CPU read or peek of a sound register.
pub fn audio_read(addr: u16) -> Result<(), Refusal> {
    refuse_if(matches!(addr, 0x5010 | 0x5015), Refusal::Audio)
}

/// 6: a CPU write to a sound register. $5001 and $5005 do nothing and are taken.
pub fn audio_write(addr: u16) -> Result<(), Refusal> {
    let sound = matches!(
        addr,
        0x5000 | 0x5002..=0x5004 | 0x5006 | 0x5007 | 0x5010 | 0x5011 | 0x5015
    );
    refuse_if(sound, Refusal::Audio)
}

/// 7: a fetch that needs a line counter above its limit. No tile count refuses one: the port's turns
/// over.
///
/// A line adds one to the line counter in frame; out of frame it starts from 0, whatever the counter
/// holds.
pub fn counter(exrom: &Exrom, addr: u16) -> Result<(), Refusal> {
    let irq = &exrom.irq_state;
    let third_equal = addr <= 0x2FFF && irq.prev_addr == Some(addr) && irq.match_count == 1;
    let lines_over = third_equal && irq.in_frame && exrom.ppu_status.scanline >= LINE_LIMIT;

    refuse_if(lines_over, Refusal::Counter)
}
