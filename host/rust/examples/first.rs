//! first: the board loaded, a PRG bank switched and a byte read through it. README shows these lines.

use mmc5::{Answer, Memory, State};

fn main() {
    let prg: Vec<u8> = (0..131_072).map(|i| (i / 8_192) as u8).collect(); // sixteen banks, each full of its number
    let (mut chr, mut ram, mut ciram, mut exram) = (vec![0; 8_192], vec![0; 8_192], vec![0; 2_048], vec![0; 1_024]);
    let mut m = Memory { prg: &prg, chr: &mut chr, ram: &mut ram, ciram: &mut ciram, exram: &mut exram };
    let mut board = State::zero();
    board.load(&m, true, 0).expect("no refusal"); // CHR is RAM, mirroring horizontal
    board.cpu_write(&mut m, 0x5114, 0x80 | 5); // in PRG mode 3, as after load: ROM bank 5 at $8000
    assert_eq!(board.cpu_read(&m, 0x8000).answer, Answer::Page(5));
    assert!(!board.clock().interrupt);
}
