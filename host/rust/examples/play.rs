//! play: loads document 01's cartridge, plays the trace on standard input in one call and prints by the log what the program `replay` prints.
//! An example of a server in Rust: all memory is its own.

use mmc5::{Answer, Memory, State, Stopped, logged};
use std::io::Read;

/// The numbers that follow a record's kind byte.
const NUMBERS: [usize; 7] = [0, 1, 2, 2, 1, 0, 2];

/// The place after a record that was played: the last byte of each of its numbers is below 128.
fn after(trace: &[u8], at: usize) -> usize {
    let (mut next, mut left) = (at + 1, NUMBERS[usize::from(trace[at])]);
    while left > 0 {
        left -= usize::from(trace[next] < 128);
        next += 1;
    }
    next
}

fn main() {
    let prg: Vec<u8> = (0..32_768usize).map(|i| (i / 1_024) as u8).collect();
    let mut chr: Vec<u8> = (0..8_192usize).map(|i| (128 + i / 1_024) as u8).collect();
    let (mut ram, mut ciram, mut exram) = (vec![0; 8_192], vec![0; 2_048], vec![0; 1_024]);
    let mut m = Memory {
        prg: &prg,
        chr: &mut chr,
        ram: &mut ram,
        ciram: &mut ciram,
        exram: &mut exram,
    };
    let mut s = State::zero();
    s.load(&m, false, 0).expect("document 01's cartridge loads");
    let mut trace = Vec::new();
    std::io::stdin().read_to_end(&mut trace).expect("standard input is read");
    let mut log = vec![0; 2 * 8_192];
    let ending = s.replay(&mut m, &trace, &mut log);
    if let Err(Stopped { refusal: 11, .. }) = ending {
        println!("? 11");
        return;
    }
    let end = ending.map_or_else(|stopped| stopped.place, |_| trace.len());
    let (mut at, mut count) = (0, 0);
    while at < end {
        let kind = trace[at];
        let outcome = logged(&log, count).expect("a record has at least one byte, so the log has room");
        let up = u8::from(outcome.interrupt);
        match outcome.answer {
            Answer::None => println!("{count} {kind} - {up}"),
            Answer::Register(val) => println!("{count} {kind} R {val} {up}"),
            Answer::Served(val) => println!("{count} {kind} S {val} {up}"),
            Answer::Page(val) => println!("{count} {kind} M {val} {up}"),
            Answer::Blank => println!("{count} {kind} B {up}"),
            Answer::Refused(_) => unreachable!("a refused record is not logged"),
        }
        at = after(&trace, at);
        count += 1;
    }
    match ending {
        Ok(played) => println!("end {played}"),
        Err(Stopped { refusal: refusal @ 9.., .. }) => println!("{count} ? {refusal}"),
        Err(Stopped { place, refusal }) => println!("{count} {} ! {refusal}", trace[place]),
    }
}
