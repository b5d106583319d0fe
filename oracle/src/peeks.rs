//! Peeks: calls that look and change nothing. No trace has them; a case may have some after its
//! trace.
//!
//! In words `cpu:5204`, `ppu:2000`, `sprite:0400`, addresses in hex. In bytes three: the number
//! of the peek, and the address, low byte first.

use crate::{
    board::{Answer, Board},
    refusal::Refusal,
    replay::line,
};

/// The three peeks in the order of their numbers.
const NAMES: [&str; 3] = ["cpu", "ppu", "sprite"];

/// A peek by its number, and its address.
#[derive(Debug, Clone, Copy, PartialEq, Eq)]
pub struct Peek {
    which: u8,
    addr: u16,
}

/// Read peeks in words.
pub fn parse(words: &str) -> Result<Vec<Peek>, String> {
    let peek = |word: &str| {
        let (name, addr) = word.split_once(':')?;
        let which = NAMES.iter().position(|n| *n == name)?;
        Some(Peek {
            which: which as u8,
            addr: u16::from_str_radix(addr, 16).ok()?,
        })
    };
    let read = |word| peek(word).ok_or_else(|| format!("'{word}' is no peek"));
    words.split_whitespace().map(read).collect()
}

/// Read peeks in bytes.
pub fn read(bytes: &[u8]) -> Result<Vec<Peek>, String> {
    let peek = |part: &[u8]| match *part {
        [which, low, high] if usize::from(which) < NAMES.len() => Ok(Peek {
            which,
            addr: u16::from_le_bytes([low, high]),
        }),
        _ => Err(format!("{part:?} is no peek")),
    };
    bytes.chunks(3).map(peek).collect()
}

impl Peek {
    /// The peek in bytes.
    pub fn write(self, out: &mut Vec<u8>) {
        out.push(self.which);
        out.extend(self.addr.to_le_bytes());
    }

    fn call(self, board: &Board) -> Result<Answer, Refusal> {
        match self.which {
            0 => board.cpu_peek(self.addr),
            1 => board.ppu_peek(self.addr),
            _ => board.sprite_peek(self.addr),
        }
    }
}

/// A line for each peek: `peek`, the address, the peek's number, then as `replay` prints a record:
/// the answer and the interrupt, or the refusal.
pub fn lines(board: &Board, peeks: &[Peek], out: &mut String) {
    for &peek in peeks {
        let Peek { which, addr } = peek;
        match peek.call(board) {
            Ok(answer) => {
                let interrupt = u8::from(board.interrupt());
                line(
                    out,
                    format_args!("peek {addr} {which} {answer} {interrupt}"),
                );
            }
            Err(refusal) => {
                let refusal = refusal.number();
                line(out, format_args!("peek {addr} {which} ! {refusal}"));
            }
        }
    }
}
