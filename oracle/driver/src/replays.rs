//! Whole traces: one replay call of the port against the Rust's replay of the same trace.

use crate::{
    pair::{Pair, in_words},
    tiles,
};
use mmc5::{Answer, Stopped};
use oracle::{
    generate::random::Random,
    replay::{self, End},
    trace::LONGEST,
};

/// What a run of replays has seen.
#[derive(Default)]
pub struct Seen {
    pub replays: u64,
    pub records: u64,
    /// By the refusal's number; 0 where the trace was played to its end.
    pub endings: [u64; 12],
}

/// The two bytes that a replay logs for an accepted record.
fn log_bytes(answer: Answer, interrupt: bool) -> [u8; 2] {
    let (letter, value) = match answer {
        Answer::None => (b'-', 0),
        Answer::Register(val) => (b'R', val),
        Answer::Served(val) => (b'S', val),
        Answer::Page(val) => (b'M', val),
        Answer::Blank => (b'B', 0),
        Answer::Refused(_) => unreachable!("a refused record is not logged"),
    };
    [letter | u8::from(interrupt) << 7, value]
}

/// The trace on both boards: the ending, every byte of a log of so many bytes, then the tile count, page tables and lent bytes.
fn play(pair: &mut Pair, trace: &[u8], room: usize, seen: &mut Seen) -> Result<(), String> {
    let mut wanted = Vec::new();
    let mut kinds = Vec::new();
    let ending = replay::play_with(&mut pair.rust, trace, tiles::within_reach, |board, _, record, answer| {
        wanted.extend(log_bytes(in_words(Ok(answer)), board.interrupt()));
        kinds.push(record);
    });
    let theirs = match ending {
        End::Count(count) => Ok(count),
        End::Call(_, refusal, place) | End::Unreadable(refusal, place) => Err(Stopped {
            place,
            refusal: refusal.number(),
        }),
    };
    let mut log = vec![0xA5; room];
    let ours = pair.state.replay(&mut pair.buffers.lent(), trace, &mut log);
    if ours != theirs {
        return Err(format!("replay of {} bytes: the Rust {theirs:?}, the port {ours:?}", trace.len()));
    }
    // What finds no room is dropped; what lies past the last record stays.
    wanted.resize(room, 0xA5);
    if let Some(at) = (0..room).find(|&at| log[at] != wanted[at]) {
        let record = kinds.get(at / 2);
        return Err(format!("log byte {at}, {record:?}: the Rust {:02X}, the port {:02X}", wanted[at], log[at]));
    }
    seen.replays += 1;
    seen.records += kinds.len() as u64;
    seen.endings[theirs.err().map_or(0, |stopped| usize::from(stopped.refusal))] += 1;
    pair.tile_count()?;
    pair.tables()?;
    pair.bytes()
}

/// The trace as it is, cut at some place, and behind so many copies that it is too long; each from the same start. Leaves what the whole trace
/// left on both boards.
pub fn compare(random: &mut Random, start: &Pair, trace: &[u8], seen: &mut Seen) -> Result<Pair, String> {
    if random.once_in(4) {
        let cut = random.below(trace.len() + 1);
        play(&mut start.clone(), &trace[..cut], 2 * LONGEST, seen)?;
    }
    if random.once_in(8) {
        let mut long = trace.to_vec();
        let length = LONGEST + 1 + random.pick(&[0, 0, 1, 4_000, 60_000]);
        long.extend(trace.iter().cycle().take(length.saturating_sub(trace.len())));
        long.resize(length, 0);
        let mut pair = start.clone();
        play(&mut pair, &long, 2 * LONGEST, seen)?;
        if pair.state != start.state || pair.buffers != start.buffers {
            return Err("a trace that is too long changed something".into());
        }
    }
    let room = match random.below(6) {
        0 => 0,
        1 => random.below(400),
        _ => 2 * LONGEST,
    };
    let mut pair = start.clone();
    play(&mut pair, trace, room, seen)?;
    Ok(pair)
}
