//! Replay: the lines that document 01 gives for the program `replay`.

use crate::{
    board::{Answer, Board},
    refusal::Refusal,
    trace::{Reader, Record},
};
use std::fmt::{self, Display, Write};

impl Display for Answer {
    fn fmt(&self, f: &mut fmt::Formatter<'_>) -> fmt::Result {
        match self {
            Answer::None => write!(f, "-"),
            Answer::Register(val) => write!(f, "R {val}"),
            Answer::Served(val) => write!(f, "S {val}"),
            Answer::Page(val) => write!(f, "M {val}"),
            Answer::Blank => write!(f, "B"),
        }
    }
}

/// How a replay ended.
#[derive(Debug, Clone, Copy, PartialEq, Eq)]
pub enum End {
    /// All records were taken.
    Count(usize),
    /// A call was refused; the place is that of the record's kind byte.
    Call(Record, Refusal, usize),
    /// A record could not be read, at that place; a trace too long ends at place 0.
    Unreadable(Refusal, usize),
}

/// Play the trace on the board. `see` is told of every accepted record.
pub fn play(
    board: &mut Board,
    trace: &[u8],
    see: impl FnMut(&Board, usize, Record, Answer),
) -> End {
    play_with(board, trace, |_, _| {}, see)
}

/// The same, with something done to the board before every record.
pub fn play_with(
    board: &mut Board,
    trace: &[u8],
    mut before: impl FnMut(&mut Board, Record),
    mut see: impl FnMut(&Board, usize, Record, Answer),
) -> End {
    let mut reader = match Reader::new(trace) {
        Ok(reader) => reader,
        Err(refusal) => return End::Unreadable(refusal, 0),
    };
    let mut count = 0;
    loop {
        let place = reader.place();
        let record = match reader.next_record() {
            Ok(Some(record)) => record,
            Ok(None) => break End::Count(count),
            Err(refusal) => break End::Unreadable(refusal, place),
        };
        before(board, record);
        match board.call(record) {
            Ok(answer) => see(board, count, record, answer),
            Err(refusal) => break End::Call(record, refusal, place),
        }
        count += 1;
    }
}

/// The lines of a replay.
pub fn lines(board: &mut Board, trace: &[u8]) -> String {
    let mut out = String::new();
    let mut count = 0;
    let end = play(board, trace, |board, number, record, answer| {
        let interrupt = u8::from(board.interrupt());
        line(
            &mut out,
            format_args!("{number} {} {answer} {interrupt}", record.kind()),
        );
        count = number + 1;
    });
    match end {
        End::Count(count) => line(&mut out, format_args!("end {count}")),
        End::Call(record, refusal, _) => {
            let (kind, refusal) = (record.kind(), refusal.number());
            line(&mut out, format_args!("{count} {kind} ! {refusal}"));
        }
        End::Unreadable(Refusal::Length, _) => line(&mut out, format_args!("? 11")),
        End::Unreadable(refusal, _) => {
            line(&mut out, format_args!("{count} ? {}", refusal.number()))
        }
    }
    out
}

/// Add one line.
pub fn line(out: &mut String, text: fmt::Arguments<'_>) {
    writeln!(out, "{text}").expect("a string takes every line");
}
