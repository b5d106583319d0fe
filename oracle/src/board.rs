//! The judge: the given Rust behind the calls of document 01.
//!
//! Each call tests its refusals first and calls the Rust after, so a refused call changes nothing.
//! A page answers here, as the console's bus does it there: a read asks the board and then the
//! page, a write does the register and then the page.

use crate::{
    cart::Cart,
    cartridge::{self, Cartridge},
    common::{NesRegion, ResetKind},
    mapper::{Map, m005_exrom::Exrom},
    memory::{Memory, MemoryLayout, PAGE_SHIFT, Page},
    ppu::Mirroring,
    refusal::{self, Refusal},
    trace::Record,
};

/// What a call answers.
#[derive(Debug, Clone, Copy, PartialEq, Eq)]
pub enum Answer {
    /// `-`
    None,
    /// `R`: a register.
    Register(u8),
    /// `S`: served by the board.
    Served(u8),
    /// `M`: the byte of a page.
    Page(u8),
    /// `B`: a blank page.
    Blank,
}

/// A loaded board and its memory.
#[derive(Clone)]
pub struct Board {
    pub exrom: Exrom,
    pub memory: Memory,
    pub cartridge: Cartridge,
    /// Leave the Rust's blank page as it is: a write may reach it, and a changed byte shows.
    pub raw: bool,
}

impl Board {
    pub fn load(cartridge: Cartridge) -> Result<Self, Refusal> {
        refusal::load(&cartridge)?;
        let mut memory = Memory::new(MemoryLayout {
            prg_rom: cartridge.prg,
            prg_ram: cartridge.ram,
            battery_ext: 0,
            chr: cartridge.chr,
            chr_writable: cartridge.chr_writable,
            ciram: cartridge.ciram,
            ex_ram: cartridge.exram,
        });
        cartridge::fill(&mut memory, cartridge.fill);
        let mut cart = Cart {
            region: NesRegion::Ntsc,
            memory,
            header_mirroring: cartridge.mirroring,
        };
        let exrom = match Exrom::load(&mut cart) {
            Ok(mapper) => mapper.0,
            Err(never) => match never {},
        };
        Ok(Self {
            exrom,
            memory: cart.memory,
            cartridge,
            raw: false,
        })
    }

    pub fn cpu_read(&mut self, addr: u16) -> Result<Answer, Refusal> {
        refusal::audio_read(addr)?;
        let register = self.exrom.prg_read(addr);
        Ok(register.map_or_else(|| self.cpu_page(addr), Answer::Register))
    }

    pub fn cpu_peek(&self, addr: u16) -> Result<Answer, Refusal> {
        refusal::audio_read(addr)?;
        let register = self.exrom.prg_peek(addr);
        Ok(register.map_or_else(|| self.cpu_page(addr), Answer::Register))
    }

    /// With no PRG-RAM, unlocking in the Rust marks the blank page writable, and a write to it
    /// alters what every blank page reads. Document 01 lists this as a difference: ours stays
    /// unwritable, so no write reaches a blank page here.
    pub fn cpu_write(&mut self, addr: u16, val: u8) -> Result<Answer, Refusal> {
        refusal::audio_write(addr)?;
        self.exrom.write_register(&mut self.memory, addr, val);
        if self.raw || !is_blank(self.prg_page(addr)) {
            self.memory.prg_write(addr, val);
        }
        Ok(Answer::None)
    }

    pub fn ppu_register_write(&mut self, addr: u16, val: u8) -> Result<Answer, Refusal> {
        self.exrom.ppu_write(addr, val);
        Ok(Answer::None)
    }

    pub fn ppu_fetch(&mut self, addr: u16) -> Result<Answer, Refusal> {
        if (0x2000..=0x3EFF).contains(&addr) {
            refusal::counter(&self.exrom, addr)?;
        }
        let served = self.exrom.chr_read(&mut self.memory, addr);
        Ok(served.map_or_else(|| self.ppu_page(addr), Answer::Served))
    }

    pub fn ppu_peek(&self, addr: u16) -> Result<Answer, Refusal> {
        let served = self.exrom.chr_peek(&self.memory, addr);
        Ok(served.map_or_else(|| self.ppu_page(addr), Answer::Served))
    }

    /// No page answers here: none in 8x8 or from $2000 on, else the CHR byte.
    pub fn sprite_peek(&self, addr: u16) -> Result<Answer, Refusal> {
        let served = self.exrom.chr_peek_spr(&self.memory, addr);
        Ok(served.map_or(Answer::None, Answer::Served))
    }

    pub fn ppu_memory_write(&mut self, addr: u16, val: u8) -> Result<Answer, Refusal> {
        self.memory.chr_write(addr, val);
        Ok(Answer::None)
    }

    pub fn clock(&mut self) -> Result<Answer, Refusal> {
        self.exrom.clock();
        Ok(Answer::None)
    }

    pub fn reset(&mut self) -> Result<Answer, Refusal> {
        self.exrom.reset(ResetKind::Soft);
        Ok(Answer::None)
    }

    pub fn mirroring(&self) -> Mirroring {
        self.exrom.mirroring()
    }

    pub fn interrupt(&self) -> bool {
        self.exrom.irq_pending()
    }

    /// The call of a trace's record.
    pub fn call(&mut self, record: Record) -> Result<Answer, Refusal> {
        match record {
            Record::Clock => self.clock(),
            Record::CpuRead(addr) => self.cpu_read(addr),
            Record::CpuWrite(addr, val) => self.cpu_write(addr, val),
            Record::PpuRegisterWrite(addr, val) => self.ppu_register_write(addr, val),
            Record::PpuFetch(addr) => self.ppu_fetch(addr),
            Record::Reset => self.reset(),
            Record::PpuMemoryWrite(addr, val) => self.ppu_memory_write(addr, val),
        }
    }

    fn prg_page(&self, addr: u16) -> Page {
        self.memory.prg_pages()[usize::from(addr) >> PAGE_SHIFT]
    }

    fn cpu_page(&self, addr: u16) -> Answer {
        self.page_answer(self.prg_page(addr), self.memory.prg_peek(addr))
    }

    /// PPU pages are taken modulo 16.
    fn ppu_page(&self, addr: u16) -> Answer {
        let page = self.memory.chr_pages()[usize::from(addr & 0x3FFF) >> PAGE_SHIFT];
        self.page_answer(page, self.memory.chr_peek(addr))
    }

    fn page_answer(&self, page: Page, byte: u8) -> Answer {
        if is_blank(page) && !(self.raw && byte != 0) {
            Answer::Blank
        } else {
            Answer::Page(byte)
        }
    }
}

/// The reserved page at the start of the Rust's arena is what every blank page shows.
pub const fn is_blank(page: Page) -> bool {
    page.offset() == 0
}
