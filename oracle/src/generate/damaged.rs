//! Damaged traces: a sound one with errors in its bytes.

use super::{play, random::Random, wild};
use crate::trace::{LONGEST, Reader, write_number};

pub fn trace(random: &mut Random, records: usize) -> Vec<u8> {
    let mut trace = if random.once_in(2) {
        play::trace(random, records)
    } else {
        wild::trace(random, records)
    };
    match random.below(8) {
        0 => flip(random, &mut trace),
        1 => cut(random, &mut trace),
        2 | 3 => pad_number(random, &mut trace),
        4 => unknown_kind(random, &mut trace),
        5 | 6 => number_above_limit(random, &mut trace),
        _ => lengthen(random, &mut trace),
    }
    trace
}

/// Up to eight bits turned over, near each other.
fn flip(random: &mut Random, trace: &mut [u8]) {
    if trace.is_empty() {
        return;
    }
    let near = random.below(trace.len());
    for _ in 0..=random.below(8) {
        let at = (near + random.below(64)) % trace.len();
        trace[at] ^= 1 << random.below(8);
    }
}

fn cut(random: &mut Random, trace: &mut Vec<u8>) {
    trace.truncate(random.below(trace.len() + 1));
}

/// The place of some record's kind byte, or the end.
fn some_record(random: &mut Random, trace: &[u8]) -> usize {
    let mut reader = Reader::new(trace).expect("a sound trace");
    let mut places = vec![0];
    while let Ok(Some(_)) = reader.next_record() {
        places.push(reader.place());
    }
    random.pick(&places)
}

/// A number's last group is followed by a group of zero.
fn pad_number(random: &mut Random, trace: &mut Vec<u8>) {
    let start = some_record(random, trace);
    let numbers = trace.iter().enumerate().skip(start + 1);
    let last = numbers.filter(|(_, byte)| **byte < 0x80).map(|(at, _)| at);
    if let Some(at) = last.take(2).last() {
        trace[at] |= 0x80;
        trace.insert(at + 1, 0);
        trace.truncate(LONGEST);
    }
}

fn unknown_kind(random: &mut Random, trace: &mut Vec<u8>) {
    let at = some_record(random, trace);
    trace.insert(at, random.pick(&[7, 8, 0x7F, 0x80, 0x81, 0x84, 0xFF]));
    trace.truncate(LONGEST);
}

/// A record whose address or value is too large comes in between.
fn number_above_limit(random: &mut Random, trace: &mut Vec<u8>) {
    let at = some_record(random, trace);
    let mut record = vec![random.pick(&[1, 2, 3, 4, 6])];
    if random.once_in(2) {
        write_number(
            random.pick(&[65_536, 65_537, 2_097_151, 2_097_152]),
            &mut record,
        );
    } else {
        write_number(random.from_to(0, 65_535).into(), &mut record);
    }
    write_number(random.pick(&[256, 16_383, 16_384]), &mut record);
    trace.splice(at..at, record);
    trace.truncate(LONGEST);
}

/// Clocks until the trace is too long.
fn lengthen(random: &mut Random, trace: &mut Vec<u8>) {
    trace.resize(LONGEST + 1 + random.below(100), 0);
}
