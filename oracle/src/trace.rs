//! Traces: the records of document 01, their reader and their writer.

use crate::refusal::Refusal;

/// Longest trace.
pub const LONGEST: usize = 8_192;

/// One call.
#[derive(Debug, Clone, Copy, PartialEq, Eq)]
pub enum Record {
    Clock,
    CpuRead(u16),
    CpuWrite(u16, u8),
    PpuRegisterWrite(u16, u8),
    PpuFetch(u16),
    Reset,
    PpuMemoryWrite(u16, u8),
}

impl Record {
    pub const fn kind(self) -> u8 {
        match self {
            Record::Clock => 0,
            Record::CpuRead(_) => 1,
            Record::CpuWrite(..) => 2,
            Record::PpuRegisterWrite(..) => 3,
            Record::PpuFetch(_) => 4,
            Record::Reset => 5,
            Record::PpuMemoryWrite(..) => 6,
        }
    }

    /// The record's bytes, in shortest form.
    pub fn write(self, out: &mut Vec<u8>) {
        out.push(self.kind());
        match self {
            Record::Clock | Record::Reset => {}
            Record::CpuRead(addr) | Record::PpuFetch(addr) => write_number(addr.into(), out),
            Record::CpuWrite(addr, val)
            | Record::PpuRegisterWrite(addr, val)
            | Record::PpuMemoryWrite(addr, val) => {
                write_number(addr.into(), out);
                write_number(val.into(), out);
            }
        }
    }
}

/// A number in groups of seven bits, lowest first, top bit set on all but the last.
pub fn write_number(mut number: u32, out: &mut Vec<u8>) {
    while number >= 0x80 {
        out.push((number & 0x7F) as u8 | 0x80);
        number >>= 7;
    }
    out.push(number as u8);
}

/// The trace and the place in it.
#[derive(Debug, Clone)]
pub struct Reader<'a> {
    trace: &'a [u8],
    place: usize,
}

impl<'a> Reader<'a> {
    pub fn new(trace: &'a [u8]) -> Result<Self, Refusal> {
        if trace.len() > LONGEST {
            return Err(Refusal::Length);
        }
        Ok(Self { trace, place: 0 })
    }

    pub const fn place(&self) -> usize {
        self.place
    }

    /// The next record, or none at the end. A refusal leaves the place at the record's kind byte.
    pub fn next_record(&mut self) -> Result<Option<Record>, Refusal> {
        let mut at = self.place;
        let Some(kind) = self.byte(&mut at) else {
            return Ok(None);
        };
        let record = match kind {
            0 => Record::Clock,
            1 => Record::CpuRead(self.address(&mut at)?),
            2 => Record::CpuWrite(self.address(&mut at)?, self.value(&mut at)?),
            3 => Record::PpuRegisterWrite(self.address(&mut at)?, self.value(&mut at)?),
            4 => Record::PpuFetch(self.address(&mut at)?),
            5 => Record::Reset,
            6 => Record::PpuMemoryWrite(self.address(&mut at)?, self.value(&mut at)?),
            _ => return Err(Refusal::Kind),
        };
        self.place = at;
        Ok(Some(record))
    }

    fn byte(&self, at: &mut usize) -> Option<u8> {
        let byte = self.trace.get(*at).copied();
        *at += 1;
        byte
    }

    fn address(&self, at: &mut usize) -> Result<u16, Refusal> {
        let number = self.number(at, 3)?;
        u16::try_from(number).map_err(|_| Refusal::Number)
    }

    fn value(&self, at: &mut usize) -> Result<u8, Refusal> {
        let number = self.number(at, 2)?;
        u8::try_from(number).map_err(|_| Refusal::Number)
    }

    /// A number of at most `groups` groups: not cut, and in shortest form.
    fn number(&self, at: &mut usize, groups: u32) -> Result<u32, Refusal> {
        let mut number = 0;
        for group in 0..groups {
            let byte = self.byte(at).ok_or(Refusal::Number)?;
            number |= u32::from(byte & 0x7F) << (7 * group);
            if byte & 0x80 == 0 {
                let shortest = byte != 0 || group == 0;
                return if shortest {
                    Ok(number)
                } else {
                    Err(Refusal::Number)
                };
            }
        }
        Err(Refusal::Number)
    }
}
