//! The board for a server in Rust: every call over a state and five buffers that the server owns.
//!
//! The work is done by the proved static library. Each of its calls takes whatever the state holds and
//! refuses with document 01's numbers; it allocates nothing, keeps nothing, and reads and writes only what
//! is lent here. So nothing in this crate has to be believed but the pointers and lengths that it hands on.

mod ffi;
pub mod words;

/// The state, as plain words. [`words`] says which is which; the server may copy and store them.
#[repr(C)]
#[derive(Clone, Debug, PartialEq, Eq)]
pub struct State {
    pub words: [u16; words::COUNT],
}

/// The five buffers. PRG-ROM is only read.
pub struct Memory<'a> {
    pub prg: &'a [u8],
    pub chr: &'a mut [u8],
    pub ram: &'a mut [u8],
    pub ciram: &'a mut [u8],
    pub exram: &'a mut [u8],
}

/// What a call answers.
#[derive(Clone, Copy, Debug, PartialEq, Eq)]
pub enum Answer {
    None,
    Register(u8),
    Served(u8),
    Page(u8),
    Blank,
    Refused(u8),
}

/// An answer, and whether the interrupt is up after the call (never said of a refusal or a peek).
#[derive(Clone, Copy, Debug, PartialEq, Eq)]
pub struct Outcome {
    pub answer: Answer,
    pub interrupt: bool,
}

/// A page table's entry: the buffer by number (0 blank, 1 PRG-ROM, 2 PRG-RAM, 3 CHR, 4 CIRAM, 5 ExRAM), the page's number in it, and
/// whether it takes writes.
#[derive(Clone, Copy, Debug, PartialEq, Eq)]
pub struct Entry {
    pub source: u8,
    pub index: u16,
    pub writable: bool,
}

/// Where a replay stopped: the place of the refused record's kind byte, and the refusal's number. The records before it were played.
#[derive(Clone, Copy, Debug, PartialEq, Eq)]
pub struct Stopped {
    pub place: usize,
    pub refusal: u8,
}

/// What record `n` (from 0) of a replay answered, by the replay's log; none past the log's end. A record that was played has two bytes: the
/// answer's letter (`-` none, `R` register, `S` served, `M` page, `B` blank) with the interrupt in the top bit, then the value.
pub fn logged(log: &[u8], n: usize) -> Option<Outcome> {
    let pair = log.get(2 * n..2 * n + 2)?;
    Some(outcome(u32::from(pair[0]) << 8 | u32::from(pair[1])))
}

#[inline]
fn outcome(number: u32) -> Outcome {
    let value = number as u8;
    let answer = match (number >> 8 & 0x7F) as u8 {
        b'-' => Answer::None,
        b'R' => Answer::Register(value),
        b'S' => Answer::Served(value),
        b'M' => Answer::Page(value),
        b'B' => Answer::Blank,
        _ => Answer::Refused(value),
    };
    Outcome {
        answer,
        interrupt: number & 0x8000 != 0,
    }
}

#[inline]
fn entry(number: u32) -> Result<Entry, u8> {
    let source = (number >> 16) as u8;
    if source == b'!' {
        return Err(number as u8);
    }
    Ok(Entry {
        source,
        index: number as u16 & 0x7FFF,
        writable: number & 0x8000 != 0,
    })
}

/// A number, or a refusal's.
#[inline]
fn number_or_refusal(number: u32) -> Result<u8, u8> {
    if number >> 8 == u32::from(b'!') {
        Err(number as u8)
    } else {
        Ok(number as u8)
    }
}

/// The lent words, as a pointer.
macro_rules! on {
    ($name:ident, mut $s:expr $(, $more:expr)*) => {
        unsafe { ffi::$name(&raw mut $s.words $(, $more)*) }
    };
    ($name:ident, $s:expr $(, $more:expr)*) => {
        unsafe { ffi::$name(&raw const $s.words $(, $more)*) }
    };
}

/// The same with the five buffers, read only.
macro_rules! over {
    ($name:ident, [$($mode:tt)*], $s:expr, $m:expr $(, $more:expr)*) => {
        on!(
            $name, $($mode)* $s, $m.prg.as_ptr(), $m.prg.len(), $m.chr.as_ptr(), $m.chr.len(), $m.ram.as_ptr(), $m.ram.len(),
            $m.ciram.as_ptr(), $m.ciram.len(), $m.exram.as_ptr(), $m.exram.len() $(, $more)*
        )
    };
}

/// The same where the buffers may be written.
macro_rules! writing {
    ($name:ident, $s:expr, $m:expr; $($after:expr),*) => {
        on!(
            $name, mut $s, $m.prg.as_ptr(), $m.prg.len(), $m.chr.as_mut_ptr(), $m.chr.len(), $m.ram.as_mut_ptr(), $m.ram.len(),
            $m.ciram.as_mut_ptr(), $m.ciram.len(), $m.exram.as_mut_ptr(), $m.exram.len(), $($after),*
        )
    };
}

impl State {
    /// A state that is not loaded: every call but load refuses it with 5.
    pub const fn zero() -> Self {
        Self { words: [0; words::COUNT] }
    }

    /// Load over the five buffers, of which no byte is written. Mirroring: 0 Horizontal, 1 Vertical, 2 SingleScreenA, 3 SingleScreenB,
    /// 4 and above FourScreen. A refused load leaves the zero state.
    #[inline]
    pub fn load(&mut self, m: &Memory<'_>, chr_writable: bool, mirroring: u8) -> Result<(), u8> {
        match outcome(over!(mmc5_load, [mut], self, m, u8::from(chr_writable), mirroring)).answer {
            Answer::Refused(number) => Err(number),
            _ => Ok(()),
        }
    }

    #[inline]
    pub fn cpu_read(&mut self, m: &Memory<'_>, addr: u16) -> Outcome {
        outcome(over!(mmc5_cpu_read, [mut], self, m, addr))
    }

    #[inline]
    pub fn cpu_peek(&self, m: &Memory<'_>, addr: u16) -> Answer {
        outcome(over!(mmc5_cpu_peek, [], self, m, addr)).answer
    }

    #[inline]
    pub fn cpu_write(&mut self, m: &mut Memory<'_>, addr: u16, val: u8) -> Outcome {
        outcome(writing!(mmc5_cpu_write, self, m; addr, val))
    }

    #[inline]
    pub fn ppu_fetch(&mut self, m: &Memory<'_>, addr: u16) -> Outcome {
        outcome(over!(mmc5_ppu_fetch, [mut], self, m, addr))
    }

    #[inline]
    pub fn ppu_peek(&self, m: &Memory<'_>, addr: u16) -> Answer {
        outcome(over!(mmc5_ppu_peek, [], self, m, addr)).answer
    }

    #[inline]
    pub fn sprite_peek(&self, m: &Memory<'_>, addr: u16) -> Answer {
        outcome(over!(mmc5_sprite_peek, [], self, m, addr)).answer
    }

    #[inline]
    pub fn ppu_write(&mut self, m: &mut Memory<'_>, addr: u16, val: u8) -> Outcome {
        outcome(writing!(mmc5_ppu_write, self, m; addr, val))
    }

    #[inline]
    pub fn ppu_register(&mut self, addr: u16, val: u8) -> Outcome {
        outcome(on!(mmc5_ppu_register, mut self, addr, val))
    }

    #[inline]
    pub fn clock(&mut self) -> Outcome {
        outcome(on!(mmc5_clock, mut self))
    }

    #[inline]
    pub fn reset(&mut self) -> Outcome {
        outcome(on!(mmc5_reset, mut self))
    }

    /// Plays a trace of at most 8,192 bytes in one call: the records played, or where it stopped. Each record that was played leaves two
    /// bytes in the log (see [`logged`]); what finds no room there is dropped, so an empty log will do. What lies past those bytes stays.
    #[inline]
    pub fn replay(&mut self, m: &mut Memory<'_>, trace: &[u8], log: &mut [u8]) -> Result<usize, Stopped> {
        let number = writing!(mmc5_replay, self, m; trace.as_ptr(), trace.len(), log.as_mut_ptr(), log.len());
        let (refusal, place) = ((number >> 16) as u8, usize::from(number as u16));
        if refusal == 0 { Ok(place) } else { Err(Stopped { place, refusal }) }
    }

    /// The mirroring by number, or a refusal's number.
    #[inline]
    pub fn mirroring(&self) -> Result<u8, u8> {
        number_or_refusal(on!(mmc5_mirroring, self))
    }

    /// Whether the interrupt is up, or a refusal's number.
    #[inline]
    pub fn interrupt(&self) -> Result<bool, u8> {
        number_or_refusal(on!(mmc5_interrupt, self)).map(|up| up != 0)
    }

    /// The PRG table's entry at a CPU address, or a refusal's number.
    #[inline]
    pub fn cpu_entry(&self, addr: u16) -> Result<Entry, u8> {
        entry(on!(mmc5_cpu_entry, self, addr))
    }

    /// The CHR table's entry at a PPU address, or a refusal's number.
    #[inline]
    pub fn ppu_entry(&self, addr: u16) -> Result<Entry, u8> {
        entry(on!(mmc5_ppu_entry, self, addr))
    }

    /// Copies the 1,024 bytes that the page at a CPU address shows of PRG-ROM or PRG-RAM; false, and nothing copied, for any other page.
    #[inline]
    pub fn cpu_page(&self, m: &Memory<'_>, addr: u16, out: &mut [u8; 1024]) -> bool {
        over!(mmc5_cpu_page, [], self, m, addr, out.as_mut_ptr(), out.len()) != 0
    }

    /// Copies the 1,024 bytes that the page at a PPU address shows of CHR; false, and nothing copied, for any other page.
    #[inline]
    pub fn ppu_page(&self, m: &Memory<'_>, addr: u16, out: &mut [u8; 1024]) -> bool {
        over!(mmc5_ppu_page, [], self, m, addr, out.as_mut_ptr(), out.len()) != 0
    }
}
