//! Shows what a board holds: both page tables, the lent bytes or their hashes, mirroring and the
//! interrupt.

use crate::{
    board::{Board, is_blank},
    cartridge::{BUFFERS, mirroring_name},
    memory::{PAGE_SIZE, Page},
    replay::line,
};
use std::ops::Range;

/// Where each buffer lies in the Rust's arena, in the order of `BUFFERS`. The order of the parts
/// is that of `Memory::new`: one reserved page, PRG-ROM, CHR-ROM, PRG-RAM, CHR-RAM, CIRAM, ExRAM.
fn regions(board: &Board) -> [Range<usize>; 5] {
    let c = &board.cartridge;
    let prg = PAGE_SIZE..PAGE_SIZE + c.prg;
    let rom_end = prg.end + if c.chr_writable { 0 } else { c.chr };
    let ram = rom_end..rom_end + c.ram;
    let ciram_start = ram.end + if c.chr_writable { c.chr } else { 0 };
    let chr_end = if c.chr_writable { ciram_start } else { rom_end };
    let ciram = ciram_start..ciram_start + c.ciram;
    let exram = ciram.end..ciram.end + c.exram;
    [prg, chr_end - c.chr..chr_end, ram, ciram, exram]
}

/// A page's buffer, as its place in `BUFFERS`, and the offset in that buffer; none if blank.
pub fn source(board: &Board, page: Page) -> Option<(usize, usize)> {
    if is_blank(page) {
        return None;
    }
    let regions = regions(board);
    let buffer = regions
        .iter()
        .position(|region| region.contains(&page.offset()));
    let buffer = buffer.expect("a page lies in a buffer");
    Some((buffer, page.offset() - regions[buffer].start))
}

/// Both page tables, a line a page: table, index, source, offset in that buffer, `w` or `-`.
pub fn tables(board: &Board, out: &mut String) {
    let prg = board.memory.prg_pages().iter().enumerate();
    let chr = board.memory.chr_pages().iter().enumerate();
    let pages = prg.map(|p| ("prg", p)).chain(chr.map(|p| ("chr", p)));
    for (table, (index, &page)) in pages {
        let writable = if page.is_writable() { "w" } else { "-" };
        match source(board, page) {
            Some((buffer, offset)) => {
                let name = BUFFERS[buffer].1;
                line(
                    out,
                    format_args!("{table} {index} {name} {offset} {writable}"),
                );
            }
            // The listed difference: the Rust may mark a blank page writable, ours never does.
            None if board.raw => line(out, format_args!("{table} {index} blank {writable}")),
            None => line(out, format_args!("{table} {index} blank")),
        }
    }
}

/// All lent bytes: buffer, offset, 32 bytes in hex.
pub fn bytes(board: &Board, out: &mut String) {
    for (src, name) in BUFFERS {
        for (row, part) in board.memory.region_ref(src).chunks(32).enumerate() {
            let hex: String = part.iter().map(|byte| format!("{byte:02X}")).collect();
            line(out, format_args!("{name} {} {hex}", row * 32));
        }
    }
}

/// FNV-1a of 64 bits.
pub fn fnv(bytes: &[u8]) -> u64 {
    bytes.iter().fold(0xCBF2_9CE4_8422_2325, |hash, &byte| {
        (hash ^ u64::from(byte)).wrapping_mul(0x0000_0100_0000_01B3)
    })
}

/// The hash of each buffer.
pub fn hashes(board: &Board, out: &mut String) {
    for (src, name) in BUFFERS {
        let hash = fnv(board.memory.region_ref(src));
        line(out, format_args!("hash {name} {hash:016X}"));
    }
}

/// Mirroring and the interrupt.
pub fn status(board: &Board, out: &mut String) {
    line(
        out,
        format_args!("mirroring {}", mirroring_name(board.mirroring())),
    );
    line(
        out,
        format_args!("interrupt {}", u8::from(board.interrupt())),
    );
}
