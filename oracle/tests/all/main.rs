//! The oracle's tests.

mod answers;
mod calls;
mod differences;
mod fixed;
mod generated;
mod given;
mod reader;
mod refusals;
mod sha256;

use oracle::{board::Board, cartridge::Cartridge, replay, show, spell};
use std::path::{Path, PathBuf};

/// A file of the oracle's folder.
fn file(path: &str) -> PathBuf {
    Path::new(env!("CARGO_MANIFEST_DIR")).join(path)
}

/// A board over a cartridge in words.
fn board(cartridge: &str) -> Board {
    let cartridge = Cartridge::parse(cartridge).expect("a cartridge");
    Board::load(cartridge).expect("load takes it")
}

/// Play a spelled trace on a board; the last line that is not `end`.
fn last_answer(board: &mut Board, words: &str) -> String {
    let trace = spell::bytes(words).expect("words");
    let lines = replay::lines(board, &trace);
    let mut answers = lines.lines().filter(|line| !line.starts_with("end"));
    answers.next_back().expect("a line").to_string()
}

/// Everything that a board holds, as text.
fn everything(board: &Board) -> String {
    let mut out = format!("{:?}\n", board.exrom);
    show::tables(board, &mut out);
    show::hashes(board, &mut out);
    show::status(board, &mut out);
    out
}
