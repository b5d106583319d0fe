//! Case files: the fixed list as text, as bytes, and its answers.
//!
//! Text: one case a line, `name | cartridge | hex of the trace`, and `| peeks` where peeks follow the
//! trace (see `peeks`); `#` starts a comment line, and a line `#: words` above a case spells its
//! trace (see `spell`). The word `line=N` or `tile=N` beside the cartridge starts the trace in frame
//! with these counters. Bytes, for each case: 1, 2 if it has peeks, 3 if it has counters; PRG-ROM
//! length / 8,192 in two bytes, low one first; CHR length / 1,024 likewise; PRG-RAM length / 1,024 in
//! one; 1 if CHR is writable, else 0; the mirroring's number; the fill seed; the trace's length in
//! two bytes, low one first; the trace; the number of peeks in one byte, and the peeks; the line
//! counter in two bytes and the full tile count in four, low ones first.

use crate::{
    board::Board,
    cartridge::{Cartridge, MIRRORINGS},
    peeks::{self, Peek},
    replay, spell, windows,
};
use std::{fs, path::Path};

/// The counters that a trace starts with, in frame.
#[derive(Debug, Clone, Copy, Default, PartialEq, Eq)]
pub struct Counters {
    pub line: u16,
    pub tile: u32,
}

#[derive(Debug, Clone)]
pub struct Case {
    pub name: String,
    pub cartridge: Cartridge,
    pub trace: Vec<u8>,
    /// The counters at the start, if not those of load.
    pub counters: Option<Counters>,
    /// What is looked at after the trace.
    pub peeks: Vec<Peek>,
    /// The trace in words, where the text gives them.
    pub words: Option<String>,
}

/// Read the text of a case file.
pub fn parse(text: &str) -> Result<Vec<Case>, String> {
    let mut cases = Vec::new();
    let mut words = None;
    for (number, line) in text.lines().enumerate() {
        if let Some(spelled) = line.strip_prefix("#:") {
            words = Some(spelled.trim().to_string());
        } else if !line.trim().is_empty() && !line.starts_with('#') {
            let case = parse_case(line, words.take());
            cases.push(case.map_err(|message| format!("line {}: {message}", number + 1))?);
        }
    }
    Ok(cases)
}

fn parse_case(line: &str, words: Option<String>) -> Result<Case, String> {
    let parts: Vec<&str> = line.split('|').map(str::trim).collect();
    let (name, cartridge, hex, peeks) = match parts[..] {
        [name, cartridge, hex] => (name, cartridge, hex, ""),
        [name, cartridge, hex, peeks] => (name, cartridge, hex, peeks),
        _ => return Err("name | cartridge | hex | peeks".to_string()),
    };
    let (counters, cartridge) = counters(cartridge)?;
    if counters.is_some() && !peeks.is_empty() {
        return Err("counters or peeks, not both".to_string());
    }
    Ok(Case {
        name: name.to_string(),
        cartridge: Cartridge::parse(&cartridge)?,
        counters,
        trace: spell::from_hex(hex)?,
        peeks: peeks::parse(peeks)?,
        words,
    })
}

/// The words `line=N` and `tile=N`, and the words beside them.
fn counters(words: &str) -> Result<(Option<Counters>, String), String> {
    let mut found = None;
    let mut rest = Vec::new();
    for word in words.split_whitespace() {
        let counters = found.unwrap_or_default();
        let wrong = |_| format!("'{word}' is no counter");
        if let Some(line) = word.strip_prefix("line=") {
            let line = line.parse().map_err(wrong)?;
            found = Some(Counters { line, ..counters });
        } else if let Some(tile) = word.strip_prefix("tile=") {
            let tile = tile.parse().map_err(wrong)?;
            found = Some(Counters { tile, ..counters });
        } else {
            rest.push(word);
        }
    }
    Ok((found, rest.join(" ")))
}

impl Case {
    /// The lines that replay prints for this case, and those of its peeks.
    pub fn answers(&self) -> Result<String, String> {
        let refused = |refusal| format!("{}: load is refused, {refusal:?}", self.name);
        let mut board = Board::load(self.cartridge).map_err(refused)?;
        if let Some(Counters { line, tile }) = self.counters {
            board.exrom.irq_state.in_frame = true;
            board.exrom.ppu_status.scanline = line;
            board.exrom.ppu_status.tile_number = tile;
        }
        let mut out = replay::lines(&mut board, &self.trace);
        peeks::lines(&board, &self.peeks, &mut out);
        Ok(out)
    }

    /// The case in bytes.
    pub fn write(&self, out: &mut Vec<u8>) {
        let c = &self.cartridge;
        let two = |number: usize| u16::try_from(number).expect("two bytes").to_le_bytes();
        let one = |number: usize| u8::try_from(number).expect("one byte");
        let mirroring = MIRRORINGS.iter().position(|(m, _)| *m == c.mirroring);
        out.push(match (self.peeks.is_empty(), self.counters) {
            (_, Some(_)) => 3,
            (false, None) => 2,
            (true, None) => 1,
        });
        out.extend(two(c.prg / 8_192));
        out.extend(two(c.chr / 1_024));
        out.push(one(c.ram / 1_024));
        out.push(u8::from(c.chr_writable));
        out.push(one(mirroring.expect("one of the five")));
        out.push(c.fill);
        out.extend(two(self.trace.len()));
        out.extend(&self.trace);
        if !self.peeks.is_empty() {
            out.push(one(self.peeks.len()));
            self.peeks.iter().for_each(|peek| peek.write(out));
        }
        if let Some(Counters { line, tile }) = self.counters {
            out.extend(line.to_le_bytes());
            out.extend(tile.to_le_bytes());
        }
    }
}

/// Read the bytes of a case file; a case is named by its number.
pub fn read(bytes: &[u8]) -> Result<Vec<Case>, String> {
    let mut cases: Vec<Case> = Vec::new();
    let mut rest = bytes;
    while !rest.is_empty() {
        let name = format!("case {}", cases.len());
        let (head, after) = rest.split_at_checked(11).ok_or(format!("{name} is cut"))?;
        let two = |at: usize| usize::from(u16::from_le_bytes([head[at], head[at + 1]]));
        let cut = after.split_at_checked(two(9));
        let (trace, mut after) = cut.ok_or(format!("{name} is cut"))?;
        let mut looked: &[u8] = &[];
        if head[0] == 2 {
            let (&count, rest) = after.split_first().ok_or(format!("{name} is cut"))?;
            let cut = rest.split_at_checked(usize::from(count) * 3);
            (looked, after) = cut.ok_or(format!("{name} is cut"))?;
        }
        let mut counters = None;
        if head[0] == 3 {
            let cut = after.split_first_chunk::<6>();
            let (&[a, b, c, d, e, f], rest) = cut.ok_or(format!("{name} is cut"))?;
            counters = Some(Counters {
                line: u16::from_le_bytes([a, b]),
                tile: u32::from_le_bytes([c, d, e, f]),
            });
            after = rest;
        }
        let mirroring = MIRRORINGS.get(usize::from(head[7]));
        let cartridge = Cartridge {
            prg: two(1) * 8_192,
            chr: two(3) * 1_024,
            ram: usize::from(head[5]) * 1_024,
            chr_writable: head[6] & 1 == 1,
            mirroring: mirroring.ok_or(format!("{name}: no such mirroring"))?.0,
            fill: head[8],
            ..Cartridge::default()
        };
        cases.push(Case {
            name,
            cartridge,
            trace: trace.to_vec(),
            counters,
            peeks: peeks::read(looked)?,
            words: None,
        });
        rest = after;
    }
    Ok(cases)
}

/// The bytes of cases.
pub fn bytes(cases: &[Case]) -> Vec<u8> {
    let mut out = Vec::new();
    cases.iter().for_each(|case| case.write(&mut out));
    out
}

/// The lines of cases, one case after the other.
pub fn answers(cases: &[Case]) -> Result<String, String> {
    cases.iter().map(Case::answers).collect()
}

/// Write anew what is made from the case files of a directory, and the windows.
pub fn fix(dir: &Path) -> Result<(), String> {
    let failed = |error: std::io::Error| error.to_string();
    let entries = fs::read_dir(dir).map_err(failed)?;
    for path in entries.map(|entry| entry.map(|entry| entry.path())) {
        let path = path.map_err(failed)?;
        if path.extension().is_some_and(|extension| extension == "txt") {
            let text = fs::read_to_string(&path).map_err(failed)?;
            let cases = parse(&text).map_err(|message| format!("{}: {message}", path.display()))?;
            fs::write(path.with_extension("cases"), bytes(&cases)).map_err(failed)?;
            fs::write(path.with_extension("answers"), answers(&cases)?).map_err(failed)?;
        }
    }
    fs::write(dir.join("windows.answers"), windows::lines()).map_err(failed)
}
