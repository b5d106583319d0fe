//! Play traces: the fetches of a console's scanlines; the game between them is in `game`.
//!
//! A scanline makes 32 tiles of name, attribute and two pattern fetches, 8 sprites of two garbage
//! fetches and two pattern fetches, two tiles for the next line, and two dummy name fetches. The
//! dummies and the next line's first name fetch are the three equal fetches. The CPU clocks once in
//! three dots, a fetch takes two. The game sees the interrupt on a board that plays along.

use super::{Draft, random::Random};
use crate::{board::Board, cartridge::Cartridge, trace::Record};

/// A console and a game at work.
pub(super) struct Play<'a> {
    pub(super) random: &'a mut Random,
    draft: Draft,
    board: Board,
    dots: u32,
    /// Coarse X, coarse Y and nametable of the next tile, as the PPU keeps them.
    v: u16,
    fine_y: u16,
    /// How often the game does something between two fetches.
    busy: usize,
}

pub fn trace(random: &mut Random, records: usize) -> Vec<u8> {
    let busy = random.pick(&[8, 40, 150, 1000]);
    let mut play = Play {
        random,
        draft: Draft::new(records),
        board: Board::load(Cartridge::default()).expect("01's cartridge loads"),
        dots: 0,
        v: 0,
        fine_y: 0,
        busy,
    };
    play.power_on();
    while !play.draft.full() {
        play.frame();
    }
    play.draft.bytes
}

impl Play<'_> {
    pub(super) fn add(&mut self, record: Record) {
        if self.draft.add(record) {
            self.board
                .call(record)
                .expect("a game that leaves sound alone");
        }
    }

    pub(super) fn write(&mut self, addr: u16, val: u8) {
        self.add(Record::CpuWrite(addr, val));
    }

    /// A fetch, the clocks that its dots bring, and what the game does meanwhile.
    fn fetch(&mut self, addr: u16) {
        self.add(Record::PpuFetch(addr));
        self.dots += 2;
        if self.dots >= 3 {
            self.dots -= 3;
            self.add(Record::Clock);
        }
        if self.board.interrupt() && self.random.once_in(6) {
            self.answer_interrupt();
        } else if self.random.once_in(self.busy) {
            self.game_step();
        }
    }

    fn name(&mut self) {
        self.fetch(0x2000 | (self.v & 0x0FFF));
    }

    fn attribute(&mut self) {
        let v = self.v;
        self.fetch(0x23C0 | (v & 0x0C00) | ((v >> 4) & 0x38) | ((v >> 2) & 0x07));
    }

    fn patterns(&mut self, half: u16) {
        let tile = u16::from(self.random.byte());
        let addr = half | (tile << 4) | self.fine_y;
        self.fetch(addr);
        self.fetch(addr + 8);
    }

    fn tile(&mut self) {
        self.name();
        self.attribute();
        self.patterns(0x0000);
        self.v = if self.v & 0x1F == 0x1F {
            (self.v & !0x1F) ^ 0x0400
        } else {
            self.v + 1
        };
    }

    /// The console at hand makes a name and an attribute fetch; others make two name fetches.
    fn sprite(&mut self) {
        self.name();
        if self.random.once_in(8) {
            self.name();
        } else {
            self.attribute();
        }
        self.patterns(0x1000);
    }

    /// A line from its first visible tile to its dummies. A short one keeps the ends alone, so that
    /// a trace holds many.
    fn line(&mut self, short: bool) {
        let (tiles, sprites) = if short { (2, 1) } else { (32, 8) };
        (0..tiles).for_each(|_| self.tile());
        self.next_row();
        (0..sprites).for_each(|_| self.sprite());
        self.tile();
        self.tile();
        self.name();
        self.name();
    }

    fn next_row(&mut self) {
        self.fine_y = (self.fine_y + 1) % 8;
        self.v &= !0x041F;
        if self.fine_y == 0 {
            let row = (self.v >> 5) & 0x1F;
            self.v = (self.v & !0x03E0) | ((row + 1) % 30) << 5;
        }
    }

    fn frame(&mut self) {
        self.v = u16::from(self.random.byte()) | (self.random.from_to(0, 3) << 10);
        self.fine_y = self.random.from_to(0, 7);
        let short = self.random.once_in(3);
        let lines = 2 + self.random.below(if short { 40 } else { 12 });
        for _ in 0..lines {
            if self.draft.full() {
                return;
            }
            self.line(short);
        }
        self.vertical_blank();
    }

    fn vertical_blank(&mut self) {
        let clocks = 1 + self.random.below(8);
        (0..clocks).for_each(|_| self.add(Record::Clock));
        if !self.random.once_in(4) {
            self.add(Record::CpuRead(0xFFFA));
            self.add(Record::CpuRead(0xFFFB));
        }
        if self.random.once_in(3) {
            self.add(Record::PpuRegisterWrite(0x2001, 0x00));
        }
        for _ in 0..self.random.below(6) {
            let addr = self.random.from_to(0x2000, 0x2FFF);
            let val = self.random.byte();
            self.add(Record::PpuMemoryWrite(addr, val));
        }
        for _ in 0..self.random.below(10) {
            self.game_step();
        }
        if self.random.once_in(12) {
            self.add(Record::Reset);
            self.power_on();
        }
        self.screen_on();
    }

    pub(super) fn screen_on(&mut self) {
        let ctrl = self.random.pick(&[0x00, 0x20, 0x20, 0xA8]);
        let mask = self.random.pick(&[0x18, 0x1E, 0x08, 0x10]);
        self.add(Record::PpuRegisterWrite(0x2000, ctrl));
        self.add(Record::PpuRegisterWrite(0x2001, mask));
    }
}
