//! compare [RECORDS] [SEED]: both boards are given the same calls. Its last line is `compared N records, D differences`.

use driver::{breaks, cartridges, pair, replays, tiles};
use oracle::{
    generate::{self, random::Random},
    trace::Reader,
};
use std::{env, time::Instant};

/// What a run has seen.
#[derive(Default)]
struct Seen {
    records: u64,
    calls: u64,
    wholes: u64,
    traces: u64,
    refused: u64,
    loads_refused: u64,
    broken: u64,
    differences: u64,
    replays: replays::Seen,
}

impl Seen {
    fn differ(&mut self, what: &str, why: String) {
        self.differences += 1;
        if self.differences <= 20 {
            println!("DIFFERENCE: {what}: {why}");
        }
    }
}

/// One cartridge, one trace.
fn trace(random: &mut Random, seen: &mut Seen) -> Result<(), String> {
    if random.once_in(8) {
        seen.calls += 1;
        let bad = cartridges::bad(random);
        if pair::load(bad)?.is_none() {
            seen.loads_refused += 1;
        }
    }
    let Some(mut pair) = pair::load(cartridges::good(random))? else {
        return Err("a good cartridge was refused".into());
    };
    if random.once_in(2) {
        pair.set_tiles(if random.once_in(3) { tiles::REACH - random.below(100) as u32 } else { random.below(201) as u32 });
        if random.once_in(2) {
            pair.set_line(random.below(240) as u16);
        }
    }
    // Near the line counter's limit refusal 7 is some fetches away.
    if random.once_in(4) {
        pair.set_line(65_279 - random.below(6) as u16);
    }
    let kind = random.pick(&["play", "play", "wild", "wild", "damaged"]);
    let records = 1 + random.below(3_000);
    let bytes = generate::trace(kind, random.next(), records).expect("a kind");
    seen.traces += 1;
    let replayed = replays::compare(random, &pair, &bytes, &mut seen.replays).map_err(|why| format!("{kind}: {why}"))?;
    let Ok(mut reader) = Reader::new(&bytes) else {
        return Ok(());
    };
    // One trace in 32 is looked at whole, at intervals and at its end.
    let looks = random.once_in(32);
    let every = 200 + random.below(1_800);
    let mut since = 0;
    let mut stopped = false;
    while let Ok(Some(record)) = reader.next_record() {
        seen.records += 1;
        seen.calls += 1;
        let taken = pair.call(record).map_err(|why| format!("{kind}: {why}"))?;
        since += 1;
        if looks && since % every == 0 {
            pair.whole().map_err(|why| format!("{kind}: {why}"))?;
            seen.wholes += 1;
        } else if since % 64 == 0 {
            pair.tables().map_err(|why| format!("{kind}: {why}"))?;
        }
        if !taken {
            seen.refused += 1;
            if !stopped {
                stopped = true;
                pair.same(&replayed).map_err(|why| format!("{kind}: {why}"))?;
            }
            if kind != "wild" {
                break;
            }
        }
    }
    if !stopped {
        pair.same(&replayed).map_err(|why| format!("{kind}: {why}"))?;
    }
    pair.shown().map_err(|why| format!("{kind}: {why}"))?;
    if looks {
        pair.whole().map_err(|why| format!("{kind}: {why}"))?;
        seen.wholes += 1;
    }
    for _ in 0..4 {
        seen.broken += 1;
        seen.calls += breaks::compare(random, &pair, &mut seen.replays)? as u64;
    }
    Ok(())
}

fn main() {
    let mut words = env::args().skip(1).map(|word| word.parse::<u64>().expect("a number"));
    let records = words.next().unwrap_or(100_000);
    let seed = words.next().unwrap_or(1);
    let mut seen = Seen::default();
    let start = Instant::now();
    let mut shown = 0;
    let mut case = 0;
    while seen.records < records {
        // Each case has a seed of its own, so that it can be run alone.
        let mut random = Random::new(seed.wrapping_mul(0x9E37_79B9).wrapping_add(case));
        if let Err(why) = trace(&mut random, &mut seen) {
            if seen.differences == 0 {
                println!("the first difference, after {} records", seen.records);
            }
            seen.differ(&format!("seed {seed}, case {case}"), why);
        }
        case += 1;
        if start.elapsed().as_secs() >= shown + 10 {
            shown = start.elapsed().as_secs();
            println!("{shown} s: {} records, {} differences", seen.records, seen.differences);
        }
    }
    let mut from_counts = 0;
    for start in tiles::starts() {
        match tiles::compare(start) {
            Ok(calls) => from_counts += calls,
            Err(why) => {
                if seen.differences == 0 {
                    println!("the first difference, from tile count {start}");
                }
                seen.differ(&format!("from tile count {start}"), why);
            }
        }
    }
    println!("from {} tile counts: {from_counts} calls", tiles::starts().count());
    match breaks::limits() {
        Ok(calls) => println!("at the words' limits: {calls} calls"),
        Err(why) => {
            if seen.differences == 0 {
                println!("the first difference, at the words' limits");
            }
            seen.differ("at the words' limits", why);
        }
    }
    println!(
        "seed {seed}: {} traces, {} calls, {} refused calls, {} refused loads, {} whole comparisons, {} broken states, {} s",
        seen.traces,
        seen.calls,
        seen.refused,
        seen.loads_refused,
        seen.wholes,
        seen.broken,
        start.elapsed().as_secs()
    );
    let e = seen.replays.endings;
    println!(
        "replays: {} traces, {} records played; {} to their end, refused by 4: {}, 5: {}, 6: {}, 7: {}, 9: {}, 10: {}, 11: {}",
        seen.replays.replays, seen.replays.records, e[0], e[4], e[5], e[6], e[7], e[9], e[10], e[11]
    );
    println!("compared {} records, {} differences", seen.records, seen.differences);
    if seen.differences > 0 {
        std::process::exit(1);
    }
}
