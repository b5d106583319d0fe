//! States with one word or page out of range, and lent lengths that differ, alone and together: every call and every replay refuses, and nothing
//! changes.

use crate::{
    pair::{self, Buffers, Pair},
    replays,
};
use mmc5::{Answer, State, Stopped, words};
use oracle::{
    cartridge::Cartridge,
    generate::random::Random,
    trace::{LONGEST, Record},
};

/// The most that each of the first 64 words may be.
#[rustfmt::skip]
const LIMITS: [u16; 64] = [
    1, 65_535, 255, 1, 2, 1, 65_279, 1, 1, 255,
    1, 959, 83, 1_023, 1, 1,
    1, 1, 1, 1, 1, 1, 1,
    4,
    3, 3, 3, 3, 3, 255, 255, 3, 255, 255,
    255, 31, 255, 255,
    3,
    127, 1_024, 64,
    255, 255, 255, 255, 255,
    255, 255, 255, 255, 255, 255, 255, 255, 255, 255, 255, 255, 255, 255, 255, 255,
    0,
];

/// What a broken state must give: its name, the refusal of calls over memory, and that of the others (0: either way).
type Broken = (&'static str, u8, u8);

/// A word before the bank registers that has this limit.
fn with_limit(random: &mut Random, limit: u16) -> usize {
    let places: Vec<usize> = (0..words::PRG_BANKS).filter(|&place| LIMITS[place] == limit).collect();
    random.pick(&places)
}

/// Puts a number above its limit into a word: the least, the greatest, one whose low byte is within the limit, or any.
fn above(random: &mut Random, s: &mut State, place: usize) {
    let limit = LIMITS[place];
    s.words[place] = match random.below(4) {
        0 => limit + 1,
        1 => u16::MAX,
        2 => random.from_to(limit / 256 + 1, 255) << 8 | random.from_to(0, limit.min(255)),
        _ => random.from_to(limit + 1, u16::MAX),
    };
}

/// Another recorded length: calls over memory give 4, and where it is above its limit the others give 5.
fn other_length(random: &mut Random, s: &mut State, place: usize, name: &'static str) -> Broken {
    if random.once_in(3) {
        above(random, s, place);
        return (name, 4, 5);
    }
    let other = random.from_to(0, LIMITS[place] - 1);
    s.words[place] = other + u16::from(other >= s.words[place]);
    (name, 4, 0)
}

/// Breaks one thing.
fn broken(random: &mut Random, s: &mut State) -> Broken {
    let prg_pages = 8 * (s.words[words::PRG_BANKS_LESS_ONE] + 1);
    let chr_pages = s.words[words::CHR_KIB];
    let ram_pages = s.words[words::RAM_KIB];
    let prg_page = words::PRG_PAGES + random.below(64);
    let chr_page = words::CHR_PAGES + random.below(16);
    match random.below(24) {
        0 => {
            let flag = with_limit(random, 1);
            above(random, s, flag);
            ("flag", 5, 5)
        }
        1 => {
            above(random, s, words::MIRRORING);
            ("mirroring", 5, 5)
        }
        2 => {
            s.words[words::LOADED] = 0;
            ("not loaded", 5, 5)
        }
        3 => {
            above(random, s, words::IDLE_COUNT);
            ("idle count", 5, 5)
        }
        4 => {
            let mode = random.pick(&[words::PRG_MODE, words::CHR_MODE, words::EXRAM_MODE, words::FILL_ATTRIBUTE]);
            above(random, s, mode);
            ("mode or fill attribute", 5, 5)
        }
        5 => {
            let protect = random.pick(&[words::PROTECT_A, words::PROTECT_B]);
            above(random, s, protect);
            ("protect byte", 5, 5)
        }
        6 => {
            above(random, s, words::SPLIT_TILE);
            ("split tile", 5, 5)
        }
        7 => {
            above(random, s, words::TILE_ADDRESS);
            ("tile address", 5, 5)
        }
        8 => {
            above(random, s, words::TILE_CACHE);
            ("tile cache", 5, 5)
        }
        9 => {
            // Its multiples of 256 among them, which the word does not hold.
            s.words[words::CHR_HI] = random.pick(&[4, 128, 255, 256, 512, 768, 769, 1_024, 65_280, 65_535]);
            ("chr_hi", 5, 5)
        }
        10 => {
            above(random, s, words::LINE_COUNTER);
            ("line counter", 5, 5)
        }
        11 => {
            above(random, s, words::TILE_COUNT);
            ("tile count", 5, 5)
        }
        12 => other_length(random, s, words::PRG_BANKS_LESS_ONE, "PRG length"),
        13 => other_length(random, s, words::CHR_KIB, "CHR length"),
        14 => other_length(random, s, words::RAM_KIB, "PRG-RAM length"),
        15 => {
            above(random, s, words::SPARE);
            ("spare word", 5, 5)
        }
        16 => {
            s.words[prg_page] = 3 + prg_pages + random.below(1_000) as u16;
            ("PRG page past PRG-ROM", 5, 5)
        }
        17 => {
            s.words[prg_page] = u16::MAX - 2 * ram_pages - random.below(100) as u16;
            ("PRG page past PRG-RAM", 5, 5)
        }
        18 => {
            s.words[chr_page] = 2_055 + chr_pages + random.below(1_000) as u16;
            ("CHR page past CHR", 5, 5)
        }
        19 => {
            s.words[chr_page] = 3 + random.below(1_024) as u16;
            ("CHR page that shows PRG-ROM", 5, 5)
        }
        20 => {
            s.words[prg_page] = 1_027 + random.below(1_028) as u16 + prg_pages;
            ("PRG page that shows CHR", 5, 5)
        }
        21 => {
            let writable = s.words[words::CHR_WRITABLE] == 1;
            s.words[chr_page] = if writable { 2_050 - chr_pages.min(1_023) - u16::from(chr_pages < 1_024) } else { 2_050 };
            if writable && chr_pages >= 1_023 {
                s.words[words::CHR_PAGES] = 1_026;
            }
            ("CHR page marked writable", 5, 5)
        }
        22 => {
            let bank = random.from_to(words::PRG_BANKS as u16, words::SPARE as u16 - 1);
            above(random, s, bank.into());
            ("bank register", 5, 5)
        }
        _ => {
            let byte = with_limit(random, 255);
            above(random, s, byte);
            ("byte", 5, 5)
        }
    }
}

/// Every call on the state and the buffers.
fn refused(random: &mut Random, s: &State, buffers: &Buffers, name: &str, number: u8, memoryless: u8) -> Result<(), String> {
    let addr = random.from_to(0, 65_535);
    let val = random.byte();
    let calls = [
        Record::Clock,
        Record::CpuRead(addr),
        Record::CpuWrite(addr, val),
        Record::PpuRegisterWrite(addr, val),
        Record::PpuFetch(addr),
        Record::Reset,
        Record::PpuMemoryWrite(addr, val),
    ];
    for record in calls {
        let (mut t, mut b) = (s.clone(), buffers.clone());
        let mut m = b.lent();
        let (outcome, wanted) = match record {
            Record::Clock => (t.clock(), memoryless),
            Record::CpuRead(addr) => (t.cpu_read(&m, addr), number),
            Record::CpuWrite(addr, val) => (t.cpu_write(&mut m, addr, val), number),
            Record::PpuRegisterWrite(addr, val) => (t.ppu_register(addr, val), memoryless),
            Record::PpuFetch(addr) => (t.ppu_fetch(&m, addr), number),
            Record::Reset => (t.reset(), memoryless),
            Record::PpuMemoryWrite(addr, val) => (t.ppu_write(&mut m, addr, val), number),
        };
        if wanted != 0 && outcome.answer != Answer::Refused(wanted) {
            return Err(format!("{name}: {record:?} gives {:?}, not {wanted}", outcome.answer));
        }
        if wanted != 0 && (t != *s || b != *buffers) {
            return Err(format!("{name}: {record:?} was refused and changed something"));
        }
    }
    let mut b = buffers.clone();
    let m = b.lent();
    let peeks = [s.cpu_peek(&m, addr), s.ppu_peek(&m, addr), s.sprite_peek(&m, addr)];
    if peeks != [Answer::Refused(number); 3] {
        return Err(format!("{name}: peeks {peeks:?}, not {number}"));
    }
    let mut out = [0; 1_024];
    if s.cpu_page(&m, addr, &mut out) || s.ppu_page(&m, addr, &mut out) || out != [0; 1_024] {
        return Err(format!("{name}: a view is not empty"));
    }
    let asked = [s.mirroring().err(), s.interrupt().err(), s.cpu_entry(addr).err(), s.ppu_entry(addr).err()];
    if memoryless != 0 && asked != [Some(memoryless); 4] {
        return Err(format!("{name}: asked {asked:?}, not {memoryless}"));
    }
    Ok(())
}

/// Replays: an empty trace, a short one and one that cannot be read give the refusal at place 0; one that is too long gives 11 before.
fn replay_refused(random: &mut Random, s: &State, buffers: &Buffers, name: &str, number: u8, seen: &mut replays::Seen) -> Result<(), String> {
    let traces = [(vec![], number), (vec![0, 5, 0], number), (vec![random.byte(); 9], number), (vec![0; LONGEST], number), (vec![0; LONGEST + 1], 11)];
    for (trace, refusal) in traces {
        let (mut t, mut b, mut log) = (s.clone(), buffers.clone(), vec![0xA5; 64]);
        let outcome = t.replay(&mut b.lent(), &trace, &mut log);
        if outcome != Err(Stopped { place: 0, refusal }) {
            return Err(format!("{name}: replay gives {outcome:?}, not {refusal}"));
        }
        if t != *s || b != *buffers || log != [0xA5; 64] {
            return Err(format!("{name}: a refused replay changed something"));
        }
        seen.replays += 1;
        seen.endings[usize::from(refusal)] += 1;
    }
    Ok(())
}

/// One broken state, one wrong lent length, and both: a lent length is asked after whether the state is loaded, and before every other range.
pub fn compare(random: &mut Random, pair: &Pair, seen: &mut replays::Seen) -> Result<usize, String> {
    let mut s = pair.state.clone();
    let (name, number, memoryless) = broken(random, &mut s);
    refused(random, &s, &pair.buffers, name, number, memoryless)?;
    replay_refused(random, &s, &pair.buffers, name, number, seen)?;
    let mut buffers = pair.buffers.clone();
    let which = random.below(5);
    if buffers.0[which].is_empty() || random.once_in(2) {
        buffers.0[which].push(0);
    } else {
        buffers.0[which].pop();
    }
    refused(random, &pair.state, &buffers, "lent length", 4, 0)?;
    replay_refused(random, &pair.state, &buffers, "lent length", 4, seen)?;
    let name = format!("lent length and {name}");
    let number = if s.words[words::LOADED] == 1 { 4 } else { 5 };
    refused(random, &s, &buffers, &name, number, memoryless)?;
    replay_refused(random, &s, &buffers, &name, number, seen)?;
    Ok(30)
}

/// Each word of the first 64 at its limit, where a clock is taken, and one above it, where every call refuses. The number of calls.
pub fn limits() -> Result<u64, String> {
    let pair = pair::load(Cartridge::default())?.ok_or("a good cartridge was refused")?;
    let mut random = Random::new(1);
    let mut calls = 0;
    for (place, &limit) in LIMITS.iter().enumerate() {
        let mut s = pair.state.clone();
        s.words[place] = limit;
        let outcome = s.clock();
        if outcome.answer != Answer::None {
            return Err(format!("word {place} at its limit {limit}: {:?}", outcome.answer));
        }
        calls += 1;
        let Some(above) = limit.checked_add(1) else {
            continue;
        };
        let mut s = pair.state.clone();
        s.words[place] = above;
        let length = [words::PRG_BANKS_LESS_ONE, words::CHR_KIB, words::RAM_KIB].contains(&place);
        refused(&mut random, &s, &pair.buffers, &format!("word {place} of {above}"), if length { 4 } else { 5 }, 5)?;
        calls += 10;
    }
    Ok(calls)
}
