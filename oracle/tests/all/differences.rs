//! The listed difference of the blank page, shown on the Rust as it stands.

use crate::{board, last_answer};
use oracle::show;

const UNLOCK_AND_WRITE: &str = "w5102=02 w5103=01 w6000=55";

/// With no PRG-RAM the Rust marks the blank page writable, and one store shows in every blank page
/// of the CPU and of the PPU.
#[test]
fn the_rust_writes_its_blank_page() {
    let mut raw = board("ram=0");
    raw.raw = true;
    assert_eq!(last_answer(&mut raw, UNLOCK_AND_WRITE), "2 2 - 0");
    assert_eq!(last_answer(&mut raw, "r6000"), "0 1 M 85 0");
    assert_eq!(last_answer(&mut raw, "r4000"), "0 1 M 85 0");
    assert_eq!(last_answer(&mut raw, "w5105=FF f2000"), "1 4 M 85 0");
    let mut out = String::new();
    show::tables(&raw, &mut out);
    assert!(out.contains("prg 24 blank w\n"));
    assert!(out.contains("prg 16 blank -\n"));
}

/// Document 01 has it unwritable, and so has the judge.
#[test]
fn the_judge_keeps_it_blank() {
    let mut judge = board("ram=0");
    assert_eq!(last_answer(&mut judge, UNLOCK_AND_WRITE), "2 2 - 0");
    assert_eq!(last_answer(&mut judge, "r6000"), "0 1 B 0");
    assert_eq!(last_answer(&mut judge, "r4000"), "0 1 B 0");
    assert_eq!(last_answer(&mut judge, "w5105=FF f2000"), "1 4 B 0");
    assert_eq!(judge.memory.prg_peek(0x6000), 0);
}

/// Where there is PRG-RAM, the two answer alike.
#[test]
fn with_ram_there_is_no_difference() {
    for ram in ["ram=1024", "ram=8192", "ram=65536"] {
        let (mut raw, mut judge) = (board(ram), board(ram));
        raw.raw = true;
        for words in [UNLOCK_AND_WRITE, "r6000", "r4000", "w5105=FF f2000"] {
            assert_eq!(last_answer(&mut raw, words), last_answer(&mut judge, words));
        }
    }
}
