//! Refusals, given exactly when document 01 says; a refused call changes nothing.

use crate::{board, everything};
use oracle::{
    board::{Answer, Board},
    cartridge::Cartridge,
    refusal::{LINE_LIMIT, Refusal},
    replay::{self, End},
    spell,
    trace::Record,
};

fn load(cartridge: Cartridge) -> Result<(), Refusal> {
    Board::load(cartridge).map(|_| ())
}

#[test]
fn load_1_2_3() {
    let with = |prg, chr, ram| {
        load(Cartridge {
            prg,
            chr,
            ram,
            ..Cartridge::default()
        })
    };
    for (prg, taken) in [
        (0, false),
        (4_096, false),
        (8_192, true),
        (12_288, false),
        (24_576, true),
    ] {
        assert_eq!(
            with(prg, 0, 0),
            if taken { Ok(()) } else { Err(Refusal::Prg) }
        );
    }
    assert_eq!(with(1_048_576, 1_048_576, 65_536), Ok(()));
    assert_eq!(with(1_056_768, 1, 1), Err(Refusal::Prg));
    assert_eq!(with(8_192, 1_023, 1), Err(Refusal::Chr));
    assert_eq!(with(8_192, 1_049_600, 0), Err(Refusal::Chr));
    assert_eq!(with(8_192, 0, 1), Err(Refusal::Ram));
    assert_eq!(with(8_192, 0, 66_560), Err(Refusal::Ram));
    for (ciram, exram) in [
        (0, 1_024),
        (1_024, 1_024),
        (4_096, 1_024),
        (2_048, 0),
        (2_048, 2_048),
    ] {
        let cartridge = Cartridge {
            ciram,
            exram,
            ..Cartridge::default()
        };
        assert_eq!(load(cartridge), Err(Refusal::Ram));
    }
}

#[test]
fn audio_6_exactly() {
    let reads = [0x5010, 0x5015];
    let writes = [
        0x5000, 0x5002, 0x5003, 0x5004, 0x5006, 0x5007, 0x5010, 0x5011, 0x5015,
    ];
    let mut board = board("-");
    for addr in 0..=0xFFFF {
        let before = (0x5000..0x5020).contains(&addr).then(|| everything(&board));
        let refused = if reads.contains(&addr) {
            Err(Refusal::Audio)
        } else {
            Ok(())
        };
        assert_eq!(board.cpu_read(addr).map(|_| ()), refused);
        assert_eq!(board.cpu_peek(addr).map(|_| ()), refused);
        let refused = if writes.contains(&addr) {
            Err(Refusal::Audio)
        } else {
            Ok(())
        };
        assert_eq!(board.cpu_write(addr, 0x81).map(|_| ()), refused);
        if let Some(before) = before {
            assert_eq!(everything(&board), before);
        }
    }
}

/// A board in frame, two equal fetches of $2001 behind it.
fn before_a_line() -> Board {
    let mut board = board("-");
    for addr in [0x2000, 0x2000, 0x2000, 0x2001, 0x2001] {
        board.ppu_fetch(addr).expect("taken");
    }
    board
}

#[test]
fn counter_7_line() {
    let mut board = before_a_line();
    board.exrom.ppu_status.scanline = LINE_LIMIT - 1;
    assert_eq!(board.ppu_fetch(0x2001), Ok(Answer::Page(0)));
    assert_eq!(board.exrom.ppu_status.scanline, LINE_LIMIT);

    let mut board = before_a_line();
    board.exrom.ppu_status.scanline = LINE_LIMIT;
    let before = everything(&board);
    assert_eq!(board.ppu_fetch(0x2001), Err(Refusal::Counter));
    assert_eq!(everything(&board), before);
    // No line: another address, and the same after a break.
    assert_eq!(board.clone().ppu_fetch(0x2002), Ok(Answer::Page(0)));
    board.ppu_register_write(0x2001, 0).expect("taken");
    for _ in 0..3 {
        assert_eq!(board.ppu_fetch(0x2001), Ok(Answer::Page(0)));
    }
    assert_eq!(board.exrom.ppu_status.scanline, 0);
}

/// 7 is given for the line counter alone: a name fetch is taken up to the last count whose column the
/// Rust can tell, and a third equal fetch is above it for a moment.
#[test]
fn counter_7_for_no_tile_count() {
    for tiles in [41, 83, 84, 4_294_967_292] {
        let mut board = before_a_line();
        board.exrom.ppu_status.tile_number = tiles;
        assert_eq!(board.ppu_fetch(0x2002), Ok(Answer::Page(0)));
        assert_eq!(board.exrom.ppu_status.tile_number, tiles + 1);
    }
    let mut board = before_a_line();
    board.exrom.ppu_status.tile_number = 4_294_967_293;
    assert_eq!(board.ppu_fetch(0x2001), Ok(Answer::Page(0)));
    assert_eq!(board.exrom.ppu_status.tile_number, 0);
}

#[test]
fn length_11_prints_one_line() {
    assert_eq!(replay::lines(&mut board("-"), &[0; 8_193]), "? 11\n");
    assert!(replay::lines(&mut board("-"), &[0; 8_192]).ends_with("end 8192\n"));
    assert_eq!(replay::lines(&mut board("-"), &[]), "end 0\n");
}

#[test]
fn a_refused_record_leaves_those_before_it() {
    let mut played = board("-");
    let trace = [
        2, 0x86, 0xA2, 1, 7, 2, 0x80, 0xA0, 1, 0, 2, 0x86, 0xA2, 1, 8,
    ];
    assert_eq!(replay::lines(&mut played, &trace), "0 2 - 0\n1 2 ! 6\n");
    assert_eq!(played.cpu_peek(0x5106), Ok(Answer::Register(7)));
}

#[test]
fn a_refusal_tells_the_place_of_its_record() {
    let end = |words| {
        let trace = spell::bytes(words).expect("words");
        replay::play(&mut board("-"), &trace, |_, _, _, _| {})
    };
    let refused = Record::CpuWrite(0x5000, 0);
    assert_eq!(
        end("c r5204 w5000=00 c"),
        End::Call(refused, Refusal::Audio, 5)
    );
    assert_eq!(end("c r5204 raw:07"), End::Unreadable(Refusal::Kind, 5));
    assert_eq!(end("c r5204 raw:0480"), End::Unreadable(Refusal::Number, 5));
    assert_eq!(end("c*8193"), End::Unreadable(Refusal::Length, 0));
    assert_eq!(end("c r5204"), End::Count(2));
}
