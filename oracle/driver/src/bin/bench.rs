//! bench [PASSES]: the Rust and the port on the same traces in one process. Its last line is `ratio: replay R, call C`. The row `gate + Rust` is no call of
//! the port: the Rust's own call behind our test of the state, which document 01 asks of every call.
//!
//! The Rust is called without any test of ours: the register, then the page. The port is called through the host boundary, where each
//! single call checks the lent lengths and the whole state. Of replay, the Rust reads the trace record by record and logs nothing; the port is
//! one call for each trace of at most 8,192 bytes, and logs every answer.

use driver::{
    pair::{self, Buffers},
    speed::{Mix, median, mixes},
};
use mmc5::State;
use oracle::{board::Board, cartridge::Cartridge, common::ResetKind, mapper::Map, trace::{LONGEST, Reader, Record}};
use std::{env, hint::black_box, time::Instant};

/// One record on the Rust, as a console's bus makes the call.
#[inline(always)]
fn rust_call(board: &mut Board, record: Record) -> u32 {
    let Board { exrom, memory, .. } = board;
    match record {
        Record::Clock => exrom.clock(),
        Record::CpuRead(addr) => return exrom.prg_read(addr).unwrap_or_else(|| memory.prg_peek(addr)).into(),
        Record::CpuWrite(addr, val) => {
            exrom.write_register(memory, addr, val);
            memory.prg_write(addr, val);
        }
        Record::PpuRegisterWrite(addr, val) => exrom.ppu_write(addr, val),
        Record::PpuFetch(addr) => return exrom.chr_read(memory, addr).unwrap_or_else(|| memory.chr_peek(addr)).into(),
        Record::Reset => exrom.reset(ResetKind::Soft),
        Record::PpuMemoryWrite(addr, val) => memory.chr_write(addr, val),
    }
    u32::from(exrom.irq_pending())
}

#[inline(always)]
fn port_call(s: &mut State, b: &mut Buffers, record: Record) -> u32 {
    let mut m = b.lent();
    let outcome = match record {
        Record::Clock => s.clock(),
        Record::CpuRead(addr) => s.cpu_read(&m, addr),
        Record::CpuWrite(addr, val) => s.cpu_write(&mut m, addr, val),
        Record::PpuRegisterWrite(addr, val) => s.ppu_register(addr, val),
        Record::PpuFetch(addr) => s.ppu_fetch(&m, addr),
        Record::Reset => s.reset(),
        Record::PpuMemoryWrite(addr, val) => s.ppu_write(&mut m, addr, val),
    };
    u32::from(outcome.interrupt)
}

fn loaded(c: Cartridge) -> (Board, State, Buffers) {
    let pair = pair::load(c).ok().flatten().expect("both load it");
    (pair.rust, pair.state, pair.buffers)
}

/// Median ns a call over the records, both boards: each pass starts from load and plays the records a few times.
fn calls(mix: &Mix, records: &[Record], passes: usize) -> (f64, f64) {
    let rounds = (200_000 / records.len().max(1)).max(1);
    let (mut theirs, mut ours) = (Vec::new(), Vec::new());
    for _ in 0..passes {
        let (mut board, mut state, mut buffers) = loaded(mix.cartridge);
        let start = Instant::now();
        for _ in 0..rounds {
            for &record in records {
                black_box(rust_call(&mut board, black_box(record)));
            }
        }
        theirs.push(start.elapsed().as_nanos() as f64 / (rounds * records.len()) as f64);
        let start = Instant::now();
        for _ in 0..rounds {
            for &record in records {
                black_box(port_call(&mut state, &mut buffers, black_box(record)));
            }
        }
        ours.push(start.elapsed().as_nanos() as f64 / (rounds * records.len()) as f64);
    }
    (median(&mut theirs), median(&mut ours))
}

/// Median ns a call over the records: the Rust alone, and the Rust with our test of the whole state before each call. No call of the port that tests
/// the state so can be faster than about that.
fn behind_the_gate(mix: &Mix, passes: usize) -> (f64, f64) {
    let rounds = (200_000 / mix.records.len().max(1)).max(1);
    let calls = (rounds * mix.records.len()) as f64;
    let (mut alone, mut behind) = (Vec::new(), Vec::new());
    for _ in 0..passes {
        for (gate, times) in [(false, &mut alone), (true, &mut behind)] {
            let (mut board, state, _) = loaded(mix.cartridge);
            let start = Instant::now();
            for _ in 0..rounds {
                for &record in &mix.records {
                    if gate {
                        black_box(state.mirroring().ok());
                    }
                    black_box(rust_call(&mut board, black_box(record)));
                }
            }
            times.push(start.elapsed().as_nanos() as f64 / calls);
        }
    }
    (median(&mut alone), median(&mut behind))
}

/// Median ns a record of the mix's traces, each replayed whole, both boards.
fn replays(mix: &Mix, passes: usize) -> (f64, f64) {
    let rounds = (400_000 / mix.records.len().max(1)).max(1);
    let played = (rounds * mix.records.len()) as f64;
    let (mut theirs, mut ours) = (Vec::new(), Vec::new());
    let mut log = vec![0; 2 * LONGEST];
    for _ in 0..passes {
        let (mut board, mut state, mut buffers) = loaded(mix.cartridge);
        let start = Instant::now();
        for _ in 0..rounds {
            for trace in &mix.traces {
                let mut reader = Reader::new(black_box(trace)).expect("short enough");
                while let Ok(Some(record)) = reader.next_record() {
                    black_box(rust_call(&mut board, record));
                }
            }
        }
        theirs.push(start.elapsed().as_nanos() as f64 / played);
        let mut count = 0;
        let start = Instant::now();
        for _ in 0..rounds {
            for trace in &mix.traces {
                count += state.replay(&mut buffers.lent(), black_box(trace), &mut log).expect("every record was taken before");
            }
        }
        ours.push(start.elapsed().as_nanos() as f64 / played);
        assert_eq!(count, rounds * mix.records.len());
    }
    (median(&mut theirs), median(&mut ours))
}

fn row(mix: &str, what: &str, (theirs, ours): (f64, f64)) -> f64 {
    println!("{mix:<16} {what:<14} {theirs:>8.1} {ours:>8.1} {:>7.2}", ours / theirs);
    ours / theirs
}

fn main() {
    let passes = env::args().nth(1).map_or(9, |word| word.parse().expect("a number"));
    println!("{:<16} {:<14} {:>8} {:>8} {:>7}", "mix", "what", "Rust ns", "port ns", "ratio");
    let (mut worst_replay, mut worst_call): (f64, f64) = (0.0, 0.0);
    for mix in mixes() {
        worst_replay = worst_replay.max(row(mix.name, "replay", replays(&mix, passes)));
        let all = row(mix.name, "single call", calls(&mix, &mix.records, passes));
        worst_call = worst_call.max(all);
        row(mix.name, "gate + Rust", behind_the_gate(&mix, passes));
        for (name, kind) in [("clock", 0), ("read", 1), ("write", 2), ("fetch", 4)] {
            let some: Vec<Record> = mix.records.iter().copied().filter(|r| r.kind() == kind).collect();
            if some.len() > 8 {
                row(mix.name, name, calls(&mix, &some, passes));
            }
        }
    }
    println!("ratio: replay {worst_replay:.2}, call {worst_call:.2}");
}
