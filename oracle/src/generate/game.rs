//! The game of a play trace: what it sets up, its interrupt handler, and what it does meanwhile.

use super::play::Play;
use crate::trace::Record;

impl Play<'_> {
    /// What a game sets up before its first frame.
    pub(super) fn power_on(&mut self) {
        let prg_mode = self.random.byte() & 0x03;
        let chr_mode = self.random.byte() & 0x03;
        self.write(0x5100, prg_mode);
        self.write(0x5101, chr_mode);
        self.write(0x5102, 0x02);
        self.write(0x5103, 0x01);
        for addr in (0x5113..=0x5117).chain(0x5120..=0x512B) {
            let val = self.random.byte();
            self.write(addr, val);
        }
        let exram = self.random.pick(&[0, 0, 1, 1, 2, 3]);
        self.write(0x5104, exram);
        let nametables = self
            .random
            .pick(&[0x44, 0x50, 0x00, 0x55, 0xAA, 0xE4, 0xFF, 0x1B]);
        self.write(0x5105, nametables);
        self.arm_interrupt();
        self.screen_on();
        for _ in 0..self.random.below(24) {
            self.store_exram();
        }
    }

    fn store_exram(&mut self) {
        let addr = self.random.from_to(0x5C00, 0x5FFF);
        let val = self.random.byte();
        self.write(addr, val);
    }

    fn arm_interrupt(&mut self) {
        let line = 1 + self.random.below(12) as u8;
        self.write(0x5203, line);
        self.write(0x5204, 0x80);
    }

    /// The handler: the vector, the acknowledgement, then the work the line was waited for.
    pub(super) fn answer_interrupt(&mut self) {
        self.add(Record::CpuRead(0xFFFE));
        self.add(Record::CpuRead(0xFFFF));
        if self.random.once_in(4) {
            // Switched off and on again before it is acknowledged.
            self.write(0x5204, 0x00);
            self.write(0x5204, 0x80);
        }
        self.add(Record::CpuRead(0x5204));
        match self.random.below(4) {
            0 => self.switch_banks(),
            1 => self.set_up_split(),
            2 => self.write(0x5204, 0x00),
            _ => {}
        }
        if self.random.once_in(2) {
            self.arm_interrupt();
        }
    }

    fn switch_banks(&mut self) {
        for _ in 0..=self.random.below(4) {
            let addr = if self.random.once_in(3) {
                self.random.from_to(0x5113, 0x5117)
            } else {
                self.random.from_to(0x5120, 0x512B)
            };
            let val = self.random.byte();
            self.write(addr, val);
        }
    }

    fn set_up_split(&mut self) {
        let side = self.random.byte() & 0x40;
        let tile = if self.random.once_in(2) {
            self.random.pick(&[0, 1, 2, 3, 16, 31])
        } else {
            self.random.byte() & 0x1F
        };
        let control = 0x80 | side | tile;
        let scroll = self.random.byte();
        let bank = self.random.byte();
        self.write(0x5200, control);
        self.write(0x5201, scroll);
        self.write(0x5202, bank);
    }

    /// One thing that a game does.
    pub(super) fn game_step(&mut self) {
        let val = self.random.byte();
        match self.random.below(16) {
            0 | 1 => self.switch_banks(),
            2 => self.set_up_split(),
            3 => self.write(0x5200, val & 0x7F),
            4 => self.write(0x5104, val),
            5 => self.write(0x5105, val),
            6 => {
                self.write(0x5106, val);
                self.write(0x5107, val >> 2);
            }
            7 | 8 => self.store_exram(),
            9 => self.arm_interrupt(),
            10 => self.add(Record::CpuRead(0x5204)),
            11 => self.multiply(val),
            12 => self.work_ram(val),
            13 => {
                let addr = self.random.pick(&[0x5100, 0x5101, 0x5130]);
                self.write(addr, val);
            }
            14 => {
                let addr = self.random.from_to(0x5100, 0x5206);
                self.add(Record::CpuRead(addr));
            }
            _ => {
                let addr = self.random.from_to(0x8000, 0xFFF9);
                self.add(Record::CpuRead(addr));
            }
        }
    }

    fn multiply(&mut self, val: u8) {
        let other = self.random.byte();
        self.write(0x5205, val);
        self.write(0x5206, other);
        self.add(Record::CpuRead(0x5205));
        self.add(Record::CpuRead(0x5206));
    }

    /// A store to work RAM, unlocked before and sometimes locked after.
    fn work_ram(&mut self, val: u8) {
        let addr = self.random.from_to(0x6000, 0xDFFF);
        let unlock = self.random.pick(&[0x02, 0x02, 0x06, 0x03]);
        self.write(0x5102, unlock);
        self.write(0x5103, 0x01);
        self.write(addr, val);
        if self.random.once_in(3) {
            self.write(0x5103, val);
        }
        self.write(addr, !val);
        self.add(Record::CpuRead(addr));
    }
}
