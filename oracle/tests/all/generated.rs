//! Generated traces: the same for the same seed, and facts that hold after every record.

use oracle::{
    board::Board,
    cases, generate,
    refusal::LINE_LIMIT,
    replay::{self, End},
    show, spell,
    trace::{LONGEST, Reader},
};

const KINDS: [&str; 3] = ["play", "wild", "damaged"];

#[test]
fn a_seed_makes_one_trace() {
    for kind in KINDS {
        let trace = |seed| generate::trace(kind, seed, usize::MAX).expect("a kind");
        assert_eq!(trace(7), trace(7));
        assert_ne!(trace(7), trace(8));
    }
    assert!(generate::trace("tame", 7, 1).is_none());
}

/// A hash of the bytes, so that a seed that somebody wrote down keeps its trace.
#[test]
fn seeds_keep_their_traces() {
    let hash = |kind| {
        let cases = generate::cases(kind, 1, 4, usize::MAX).expect("a kind");
        show::fnv(&cases::bytes(&cases))
    };
    assert_eq!(KINDS.map(hash), SEED_1);
}

const SEED_1: [u64; 3] = [
    5_924_619_382_687_474_884,
    12_114_336_135_093_682_645,
    9_219_542_214_550_567_779,
];

#[test]
fn traces_keep_their_length_and_read() {
    for seed in 0..20 {
        for kind in ["play", "wild"] {
            let trace = generate::trace(kind, seed, usize::MAX).expect("a kind");
            assert!(trace.len() <= LONGEST && trace.len() > LONGEST - 10);
            let mut reader = Reader::new(&trace).expect("short");
            while reader.next_record().expect("sound").is_some() {}
        }
        let trace = generate::trace("play", seed, 10).expect("a kind");
        assert!(Reader::new(&trace).is_ok_and(|mut reader| {
            (0..10).all(|_| matches!(reader.next_record(), Ok(Some(_))))
                && reader.next_record() == Ok(None)
        }));
    }
}

#[test]
fn words_give_the_trace_back() {
    for kind in KINDS {
        for seed in 0..20 {
            let trace = generate::trace(kind, seed, usize::MAX).expect("a kind");
            assert_eq!(spell::bytes(&spell::words(&trace)), Ok(trace));
        }
    }
}

/// The interrupt is flag and enable, the split address stays in the table, and the state keeps the
/// ranges of document 01.
fn check_state(board: &Board) {
    let exrom = &board.exrom;
    let regs = &exrom.regs;
    assert_eq!(
        regs.irq_pending,
        exrom.irq_state.pending && regs.irq_enabled
    );
    assert_eq!(regs.irq_pending, board.interrupt());
    assert!(regs.vsplit.tile_addr <= 959);
    assert!(regs.vsplit.tile <= 31 && exrom.tile_cache <= 1_023 && regs.fill.attr <= 3);
    assert!(exrom.ppu_status.idle_count <= 2);
    assert!(exrom.ppu_status.scanline <= LINE_LIMIT);
    assert!(regs.prg_ram_protect.iter().all(|&protect| protect <= 3));
    assert!([0, 256, 512, 768].contains(&regs.chr_hi));
    let product = u16::from(regs.multiplicand) * u16::from(regs.multiplier);
    assert_eq!(regs.mult_result, product);
}

#[test]
fn facts_after_every_record() {
    let mut refusals = [0; 12];
    let mut ups = 0;
    for kind in KINDS {
        for case in generate::cases(kind, 2, 80, usize::MAX).expect("a kind") {
            let mut board = Board::load(case.cartridge).expect("load takes it");
            let end = replay::play(&mut board, &case.trace, |board, _, _, _| {
                check_state(board);
                ups += usize::from(board.interrupt());
            });
            match end {
                End::Count(_) => {}
                End::Call(_, refusal, _) | End::Unreadable(refusal, _) => {
                    refusals[usize::from(refusal.number())] += 1;
                }
            }
        }
    }
    assert!(ups > 1_000, "{ups} records leave the interrupt up");
    // 7 never occurs; the others that a trace can meet do.
    for (number, &count) in refusals.iter().enumerate() {
        assert_eq!(
            count > 0,
            [6, 9, 10, 11].contains(&number),
            "refusal {number}: {count}"
        );
    }
}
