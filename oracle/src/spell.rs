//! Spells traces: words that people read and write, and the bytes they stand for.
//!
//! `c` clock, `r5204` CPU read, `w5203=01` CPU write, `p2001=18` PPU register write, `f2000` PPU
//! fetch, `reset`, `m2000=05` PPU memory write, `raw:0480` bytes as they stand. Addresses and
//! values are in hex. `f2000*3` stands for three.

use crate::trace::{Reader, Record};

/// The bytes of a trace in words.
pub fn bytes(words: &str) -> Result<Vec<u8>, String> {
    let mut out = Vec::new();
    for word in words.split_whitespace() {
        let (one, times) = word.split_once('*').unwrap_or((word, "1"));
        let times: usize = times.parse().map_err(|_| format!("'{word}': how often?"))?;
        for _ in 0..times {
            match one.strip_prefix("raw:") {
                Some(hex) => out.extend(from_hex(hex)?),
                None => record(one)?.write(&mut out),
            }
        }
    }
    Ok(out)
}

fn record(word: &str) -> Result<Record, String> {
    match word {
        "c" => return Ok(Record::Clock),
        "reset" => return Ok(Record::Reset),
        _ => {}
    }
    let unknown = || format!("'{word}' is no record");
    let (kind, numbers) = word.split_at_checked(1).ok_or_else(unknown)?;
    let (addr, val) = numbers.split_once('=').unwrap_or((numbers, ""));
    let addr = u16::from_str_radix(addr, 16).map_err(|_| unknown())?;
    let val = || u8::from_str_radix(val, 16).map_err(|_| unknown());
    Ok(match kind {
        "r" => Record::CpuRead(addr),
        "f" => Record::PpuFetch(addr),
        "w" => Record::CpuWrite(addr, val()?),
        "p" => Record::PpuRegisterWrite(addr, val()?),
        "m" => Record::PpuMemoryWrite(addr, val()?),
        _ => return Err(unknown()),
    })
}

/// The words of a trace; what cannot be read stands at the end as raw bytes.
pub fn words(trace: &[u8]) -> String {
    let mut words = Vec::new();
    let mut place = 0;
    if let Ok(mut reader) = Reader::new(trace) {
        while let Ok(Some(record)) = reader.next_record() {
            words.push(word(record));
        }
        place = reader.place();
    }
    if place < trace.len() {
        words.push(format!("raw:{}", to_hex(&trace[place..], "")));
    }
    words.join(" ")
}

fn word(record: Record) -> String {
    match record {
        Record::Clock => "c".to_string(),
        Record::CpuRead(addr) => format!("r{addr:04X}"),
        Record::CpuWrite(addr, val) => format!("w{addr:04X}={val:02X}"),
        Record::PpuRegisterWrite(addr, val) => format!("p{addr:04X}={val:02X}"),
        Record::PpuFetch(addr) => format!("f{addr:04X}"),
        Record::Reset => "reset".to_string(),
        Record::PpuMemoryWrite(addr, val) => format!("m{addr:04X}={val:02X}"),
    }
}

pub fn to_hex(bytes: &[u8], between: &str) -> String {
    let hex: Vec<String> = bytes.iter().map(|byte| format!("{byte:02X}")).collect();
    hex.join(between)
}

/// Bytes from hex digits; blanks between them do not count.
pub fn from_hex(hex: &str) -> Result<Vec<u8>, String> {
    let digits: Vec<u8> = hex
        .bytes()
        .filter(|digit| !digit.is_ascii_whitespace())
        .collect();
    let byte = |pair: &[u8]| {
        let text = std::str::from_utf8(pair)
            .ok()
            .filter(|text| text.len() == 2);
        let number = text.and_then(|text| u8::from_str_radix(text, 16).ok());
        number.ok_or_else(|| format!("'{hex}' is not hex"))
    };
    digits.chunks(2).map(byte).collect()
}
