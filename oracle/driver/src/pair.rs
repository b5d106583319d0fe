//! The two boards, and the comparison.

use crate::tiles;
use mmc5::{Answer as Ours, Memory, State, words};
use oracle::{
    board::{Answer, Board},
    cartridge::{BUFFERS, Cartridge, MIRRORINGS, fill_byte},
    memory::Page,
    refusal::Refusal,
    show,
    trace::Record,
};

/// The buffers that the host lends, owned.
#[derive(Clone, PartialEq, Eq)]
pub struct Buffers(pub [Vec<u8>; 5]);

impl Buffers {
    pub fn filled(c: &Cartridge) -> Self {
        let lengths = [c.prg, c.chr, c.ram, c.ciram, c.exram];
        Self(std::array::from_fn(|buffer| {
            (0..lengths[buffer]).map(|offset| fill_byte(c.fill, buffer, offset)).collect()
        }))
    }

    pub fn lent(&mut self) -> Memory<'_> {
        let [prg, chr, ram, ciram, exram] = &mut self.0;
        Memory {
            prg,
            chr,
            ram,
            ciram,
            exram,
        }
    }
}

/// Both boards.
#[derive(Clone)]
pub struct Pair {
    pub rust: Board,
    pub state: State,
    pub buffers: Buffers,
}

/// The Rust's answer in the host's words.
pub fn in_words(answer: Result<Answer, Refusal>) -> Ours {
    match answer {
        Ok(Answer::None) => Ours::None,
        Ok(Answer::Register(val)) => Ours::Register(val),
        Ok(Answer::Served(val)) => Ours::Served(val),
        Ok(Answer::Page(val)) => Ours::Page(val),
        Ok(Answer::Blank) => Ours::Blank,
        Err(refusal) => Ours::Refused(refusal.number()),
    }
}

pub fn mirroring_number(c: &Cartridge) -> u8 {
    let found = MIRRORINGS.iter().position(|(m, _)| *m == c.mirroring);
    found.expect("one of the five") as u8
}

/// Load on both. None where both refuse alike; a difference is said.
pub fn load(c: Cartridge) -> Result<Option<Pair>, String> {
    let mut buffers = Buffers::filled(&c);
    let before = buffers.clone();
    // Load takes any words.
    let mut state = State {
        words: [77; words::COUNT],
    };
    let ours = state.load(&buffers.lent(), c.chr_writable, mirroring_number(&c));
    if buffers != before {
        return Err(format!("load wrote a lent byte: {c:?}"));
    }
    match (Board::load(c), ours) {
        (Ok(rust), Ok(())) => Ok(Some(Pair {
            rust,
            state,
            buffers,
        })),
        (Err(refusal), Err(number)) if refusal.number() == number => {
            let zero = state == State::zero();
            if zero { Ok(None) } else { Err(format!("a refused load left no zero state: {c:?}")) }
        }
        (rust, ours) => Err(format!("load: {:?} and {ours:?}: {c:?}", rust.err())),
    }
}

impl Pair {
    /// Sets the Rust's tile count; the port is given its fold.
    pub fn set_tiles(&mut self, tiles: u32) {
        self.rust.exrom.ppu_status.tile_number = tiles;
        self.state.words[words::TILE_COUNT] = tiles::fold(tiles) as u16;
    }

    /// Sets both boards in frame at a line.
    pub fn set_line(&mut self, line: u16) {
        self.state.words[words::LINE_COUNTER] = line;
        self.rust.exrom.ppu_status.scanline = line;
        self.state.words[words::IN_FRAME] = 1;
        self.rust.exrom.irq_state.in_frame = true;
    }

    /// A record's call on the port.
    pub fn ours(&mut self, record: Record) -> mmc5::Outcome {
        let mut m = self.buffers.lent();
        let s = &mut self.state;
        match record {
            Record::Clock => s.clock(),
            Record::CpuRead(addr) => s.cpu_read(&m, addr),
            Record::CpuWrite(addr, val) => s.cpu_write(&mut m, addr, val),
            Record::PpuRegisterWrite(addr, val) => s.ppu_register(addr, val),
            Record::PpuFetch(addr) => s.ppu_fetch(&m, addr),
            Record::Reset => s.reset(),
            Record::PpuMemoryWrite(addr, val) => s.ppu_write(&mut m, addr, val),
        }
    }

    /// The split tile's address, on both: the same, and at most 959. A fetch has no refusal of its own for one above it.
    fn split_address(&self) -> Result<(), String> {
        let theirs = self.rust.exrom.regs.vsplit.tile_addr;
        let ours = self.state.words[words::TILE_ADDRESS];
        if theirs != ours || ours > 959 {
            return Err(format!("split tile address: the Rust {theirs}, the port {ours}"));
        }
        Ok(())
    }

    /// The tile count: the port's is the fold of the Rust's.
    pub fn tile_count(&self) -> Result<(), String> {
        let theirs = self.rust.exrom.ppu_status.tile_number;
        let ours = self.state.words[words::TILE_COUNT];
        if tiles::fold(theirs) != u32::from(ours) {
            return Err(format!("tile count: the Rust {theirs}, the port {ours}"));
        }
        Ok(())
    }

    /// The call on both, with answer, interrupt and tile count compared, and after a fetch the split tile's address. True if the call was taken.
    pub fn call(&mut self, record: Record) -> Result<bool, String> {
        tiles::within_reach(&mut self.rust, record);
        let theirs = in_words(self.rust.call(record));
        let ours = self.ours(record);
        if ours.answer != theirs {
            return Err(format!("{record:?}: the Rust {theirs:?}, the port {:?}", ours.answer));
        }
        if matches!(record, Record::PpuFetch(_)) {
            self.split_address().map_err(|why| format!("{record:?}: {why}"))?;
        }
        self.tile_count().map_err(|why| format!("{record:?}: {why}"))?;
        let taken = !matches!(theirs, Ours::Refused(_));
        if taken && ours.interrupt != self.rust.interrupt() {
            return Err(format!("{record:?}: interrupt, the Rust {}", self.rust.interrupt()));
        }
        if self.state.interrupt() != Ok(self.rust.interrupt()) {
            return Err(format!("{record:?}: interrupt asked, the Rust {}", self.rust.interrupt()));
        }
        Ok(taken)
    }

    /// The port's state and buffers here and where the same records were played by one replay: word by word and byte by byte the same.
    pub fn same(&self, replayed: &Pair) -> Result<(), String> {
        if self.state != replayed.state || self.buffers != replayed.buffers {
            return Err("replay and single calls leave different words or bytes".into());
        }
        Ok(())
    }

    /// What the Rust's page is, in the port's numbers.
    fn entry(&self, page: Page) -> mmc5::Entry {
        match show::source(&self.rust, page) {
            None => mmc5::Entry {
                source: 0,
                index: 0,
                writable: false,
            },
            Some((buffer, offset)) => mmc5::Entry {
                source: [1, 3, 2, 4, 5][buffer],
                index: (offset / 1_024) as u16,
                writable: page.is_writable(),
            },
        }
    }

    /// Everything that can be asked: both page tables, all lent bytes, mirroring, the interrupt, page views, and peeks and sprite peeks over
    /// all addresses.
    pub fn whole(&mut self) -> Result<(), String> {
        self.shown()?;
        let m = self.buffers.lent();
        for addr in 0..=u16::MAX {
            let pairs = [
                ("CPU peek", self.state.cpu_peek(&m, addr), in_words(self.rust.cpu_peek(addr))),
                ("PPU peek", self.state.ppu_peek(&m, addr), in_words(self.rust.ppu_peek(addr))),
                ("sprite peek", self.state.sprite_peek(&m, addr), in_words(self.rust.sprite_peek(addr))),
            ];
            for (name, ours, theirs) in pairs {
                if ours != theirs {
                    return Err(format!("{name} {addr:04X}: the Rust {theirs:?}, the port {ours:?}"));
                }
            }
        }
        Ok(())
    }

    /// Both page tables with the bytes that each page shows, all lent bytes, mirroring.
    pub fn shown(&mut self) -> Result<(), String> {
        self.tables()?;
        self.bytes()?;
        for page in 0..64 {
            self.view((page * 1_024) as u16, true)?;
        }
        for page in 0..16 {
            self.view((page * 1_024) as u16, false)?;
        }
        let mirroring = MIRRORINGS.iter().position(|(m, _)| *m == self.rust.mirroring());
        if self.state.mirroring().ok().map(usize::from) != mirroring {
            return Err(format!("mirroring {:?}, the Rust {mirroring:?}", self.state.mirroring()));
        }
        Ok(())
    }

    /// All lent bytes.
    pub fn bytes(&self) -> Result<(), String> {
        for (buffer, (src, name)) in BUFFERS.into_iter().enumerate() {
            if self.rust.memory.region_ref(src) != self.buffers.0[buffer] {
                return Err(format!("bytes of {name}"));
            }
        }
        Ok(())
    }

    /// Both page tables, entry by entry.
    pub fn tables(&self) -> Result<(), String> {
        for page in 0..64 {
            let addr = (page * 1_024) as u16;
            let theirs = self.entry(self.rust.memory.prg_pages()[page]);
            if self.state.cpu_entry(addr) != Ok(theirs) {
                return Err(format!("PRG page {page}: {:?}, the Rust {theirs:?}", self.state.cpu_entry(addr)));
            }
        }
        for page in 0..16 {
            let addr = (page * 1_024) as u16;
            let theirs = self.entry(self.rust.memory.chr_pages()[page]);
            if self.state.ppu_entry(addr) != Ok(theirs) {
                return Err(format!("CHR page {page}: {:?}, the Rust {theirs:?}", self.state.ppu_entry(addr)));
            }
        }
        Ok(())
    }

    /// A page's bytes: those that the Rust reads there, where the page shows PRG-ROM, PRG-RAM or CHR; else none.
    fn view(&mut self, addr: u16, cpu: bool) -> Result<(), String> {
        let mut out = [0xA5; 1_024];
        let page = usize::from(addr / 1_024);
        let entry = self.entry(if cpu { self.rust.memory.prg_pages()[page] } else { self.rust.memory.chr_pages()[page] });
        let m = self.buffers.lent();
        let (some, wanted) = if cpu {
            (self.state.cpu_page(&m, addr, &mut out), matches!(entry.source, 1 | 2))
        } else {
            (self.state.ppu_page(&m, addr, &mut out), entry.source == 3)
        };
        let memory = &self.rust.memory;
        let right = |(i, byte): (usize, &u8)| {
            let at = addr + i as u16;
            *byte == if !some { 0xA5 } else if cpu { memory.prg_peek(at) } else { memory.chr_peek(at) }
        };
        if some != wanted || !out.iter().enumerate().all(right) {
            return Err(format!("view of page {addr:04X}, CPU {cpu}"));
        }
        Ok(())
    }
}
