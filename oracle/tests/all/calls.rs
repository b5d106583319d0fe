//! The calls that no trace makes, and what load leaves.

use crate::{board, everything, last_answer};
use oracle::{board::Answer, cartridge::MIRRORINGS, show};

#[test]
fn tables_after_load() {
    let mut out = String::new();
    show::tables(&board("-"), &mut out);
    let lines: Vec<&str> = out.lines().collect();
    assert_eq!(lines.len(), 80);
    assert_eq!(lines[23], "prg 23 blank");
    assert_eq!(lines[24], "prg 24 PRG-RAM 0 -");
    assert_eq!(lines[32], "prg 32 PRG-RAM 0 -");
    assert_eq!(lines[63], "prg 63 PRG-ROM 31744 -");
    assert_eq!(lines[64], "chr 0 CHR 0 -");
    assert_eq!(lines[79], "chr 15 CIRAM 0 w");
}

#[test]
fn tables_with_chr_ram() {
    let mut board = board("prg=8192 chr=3072 chr-ram ram=1024");
    last_answer(&mut board, "w5120=02 w5104=00 w5105=E4");
    let mut out = String::new();
    show::tables(&board, &mut out);
    let lines: Vec<&str> = out.lines().collect();
    assert_eq!(lines[64], "chr 0 CHR 2048 w");
    assert_eq!(lines[73], "chr 9 CIRAM 1024 w");
    assert_eq!(lines[74], "chr 10 ExRAM 0 w");
    assert_eq!(lines[75], "chr 11 blank");
}

#[test]
fn mirroring_is_the_headers_until_5105() {
    for (mirroring, name) in MIRRORINGS {
        let mut board = board(&format!("mirroring={name}"));
        assert_eq!(board.mirroring(), mirroring);
        for (val, name) in [
            (0x50, "Horizontal"),
            (0x44, "Vertical"),
            (0x00, "SingleScreenA"),
            (0x55, "SingleScreenB"),
            (0xE4, "FourScreen"),
        ] {
            board.cpu_write(0x5105, val).expect("taken");
            let mut out = String::new();
            show::status(&board, &mut out);
            assert_eq!(out, format!("mirroring {name}\ninterrupt 0\n"));
        }
    }
}

#[test]
fn peeks_change_nothing() {
    let mut board = board("fill=5");
    let set_up = "w5104=01 p2001=18 p2000=20 w5203=01 w5204=80 w5200=C3 f2000*3 f2001*3 f2002";
    last_answer(&mut board, set_up);
    let before = everything(&board);
    for addr in (0..=0xFFFF).filter(|addr| ![0x5010, 0x5015].contains(addr)) {
        board.cpu_peek(addr).expect("taken");
        board.ppu_peek(addr).expect("taken");
        board.sprite_peek(addr).expect("taken");
    }
    assert_eq!(everything(&board), before);
    assert_eq!(board.cpu_peek(0x5204), Ok(Answer::Register(192)));
    assert_eq!(board.cpu_read(0x5204), Ok(Answer::Register(192)));
    assert_eq!(board.cpu_peek(0x5204), Ok(Answer::Register(64)));
}

#[test]
fn a_ppu_peek_chooses_no_set() {
    let mut board = board("-");
    last_answer(&mut board, "p2000=20 w5120=01 w5128=02 p2000=00");
    assert_eq!(board.ppu_peek(0x0000), Ok(Answer::Page(130)));
    assert_eq!(board.ppu_fetch(0x0000), Ok(Answer::Page(129)));
    assert_eq!(board.ppu_peek(0x0000), Ok(Answer::Page(129)));
}

#[test]
fn sprite_peek() {
    let mut tall = board("chr=65536");
    assert_eq!(tall.sprite_peek(0x0000), Ok(Answer::None));
    last_answer(&mut tall, "p2000=20 w5101=02 w5121=05 w5129=01");
    assert_eq!(tall.sprite_peek(0x0400), Ok(Answer::Served(128 + 11)));
    assert_eq!(tall.ppu_peek(0x0400), Ok(Answer::Page(128 + 3)));
    assert_eq!(tall.sprite_peek(0x2000), Ok(Answer::None));

    let mut empty = board("chr=0");
    last_answer(&mut empty, "p2000=20");
    assert_eq!(empty.sprite_peek(0x0000), Ok(Answer::Served(0)));
    assert_eq!(empty.ppu_peek(0x0000), Ok(Answer::Blank));
}
