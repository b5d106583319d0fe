//! Windows: the pages that the Rust's `Memory` shows for a bank of a buffer.

use crate::{
    memory::{Memory, MemoryLayout, PAGE_SIZE, Page, Src},
    replay::line,
};

/// For windows of 8,192 bytes, over PRG-ROM.
const PRG_LENGTHS: [usize; 13] = [
    0, 1_024, 2_048, 3_072, 5_120, 7_168, 8_192, 9_216, 16_384, 24_576, 41_984, 65_536, 1_048_576,
];
const PRG_BANKS: [i32; 11] = [0, 1, 2, 3, 5, 7, 8, 63, 127, 128, 255];

/// For windows of 1,024 bytes, over CHR.
const CHR_LENGTHS: [usize; 8] = [0, 1_024, 2_048, 3_072, 7_168, 8_192, 24_576, 1_048_576];
const CHR_BANKS: [i32; 14] = [0, 1, 2, 3, 5, 7, 8, 63, 127, 128, 255, 1_023, 1_024, 8_191];

/// One line a window: `window length bank: p0 p1 ...`, each page its offset / 1,024 in the buffer,
/// or `blank`.
pub fn lines() -> String {
    let mut out = String::new();
    for length in PRG_LENGTHS {
        for bank in PRG_BANKS {
            let mut memory = Memory::new(MemoryLayout {
                prg_rom: length,
                ..MemoryLayout::default()
            });
            memory.map_prg(0x8000, 8_192, bank, Src::PrgRom);
            window(&mut out, 8_192, length, bank, &memory.prg_pages()[32..40]);
        }
    }
    for length in CHR_LENGTHS {
        for bank in CHR_BANKS {
            let mut memory = Memory::new(MemoryLayout {
                chr: length,
                ..MemoryLayout::default()
            });
            memory.map_chr(0x0000, 1_024, bank, Src::Chr);
            window(&mut out, 1_024, length, bank, &memory.chr_pages()[..1]);
        }
    }
    out
}

/// The buffer is the only ROM of its layout, so it starts after the one reserved page.
fn window(out: &mut String, window: usize, length: usize, bank: i32, pages: &[Page]) {
    let shown = pages.iter().map(|page| match page.offset() {
        0 => " blank".to_string(),
        offset => format!(" {}", (offset - PAGE_SIZE) / 1_024),
    });
    let shown: String = shown.collect();
    line(out, format_args!("{window} {length} {bank}:{shown}"));
}
