//! The commands of the program `oracle`.

use crate::{
    board::Board,
    cartridge::Cartridge,
    cases::{self, Case},
    generate, replay, show, spell, windows,
};
use std::{
    fs,
    io::{Read, Write},
    path::Path,
};

const USAGE: &str = "one of
  replay [--prg N] [--chr N] [--ram N] [--chr-ram] [--mirroring NAME] [--fill SEED]
         [--tables] [--bytes] [--hash] [--rust]      (trace on standard input)
  generate play|wild|damaged SEED [RECORDS]          (trace on standard output)
  cases play|wild|damaged SEED COUNT [RECORDS]       (case file in bytes on standard output)
  list [--names] FILE                                (answers of a .txt or .cases file)
  fix DIR
  windows
  spell WORDS...                                     (words to hex)
  words                                              (trace on standard input to words)";

pub fn run(words: &[String]) -> Result<(), String> {
    let words: Vec<&str> = words.iter().map(String::as_str).collect();
    match words[..] {
        ["replay", ref flags @ ..] => replay_command(flags),
        ["generate", kind, seed, ref records @ ..] => {
            let trace = generate::trace(kind, number(seed)?, records_of(records)?);
            put(&trace.ok_or(USAGE)?)
        }
        ["cases", kind, seed, count, ref records @ ..] => {
            let (seed, count, records) = (number(seed)?, number(count)?, records_of(records)?);
            let cases = generate::cases(kind, seed, count, records);
            put(&cases::bytes(&cases.ok_or(USAGE)?))
        }
        ["list", file] => put(cases::answers(&cases_of(file)?)?.as_bytes()),
        ["list", "--names", file] => list_with_names(&cases_of(file)?),
        ["fix", dir] => cases::fix(Path::new(dir)),
        ["windows"] => put(windows::lines().as_bytes()),
        ["spell", ref words @ ..] => {
            let bytes = spell::bytes(&words.join(" "))?;
            put(format!("{}\n", spell::to_hex(&bytes, " ")).as_bytes())
        }
        ["words"] => put(format!("{}\n", spell::words(&standard_input()?)).as_bytes()),
        _ => Err(USAGE.to_string()),
    }
}

/// What `replay` prints after the lines.
#[derive(Default)]
struct After {
    tables: bool,
    bytes: bool,
    hash: bool,
}

fn replay_command(flags: &[&str]) -> Result<(), String> {
    let mut cartridge = Cartridge::default();
    let mut after = After::default();
    let mut raw = false;
    let mut flags = flags.iter();
    while let Some(&flag) = flags.next() {
        match flag {
            "--tables" => after.tables = true,
            "--bytes" => after.bytes = true,
            "--hash" => after.hash = true,
            "--rust" => raw = true,
            "--chr-ram" => cartridge.set("chr-ram", "")?,
            _ => {
                let name = flag.strip_prefix("--").ok_or(USAGE)?;
                cartridge.set(name, flags.next().ok_or(USAGE)?)?;
            }
        }
    }
    let trace = standard_input()?;
    let mut board = Board::load(cartridge)
        .map_err(|refusal| format!("load is refused: {}", refusal.number()))?;
    board.raw = raw;
    let mut out = replay::lines(&mut board, &trace);
    if after.tables {
        show::tables(&board, &mut out);
    }
    if after.bytes {
        show::bytes(&board, &mut out);
    }
    if after.hash {
        show::hashes(&board, &mut out);
    }
    if after.tables || after.bytes || after.hash {
        show::status(&board, &mut out);
    }
    put(out.as_bytes())
}

fn number(word: &str) -> Result<u64, String> {
    word.parse().map_err(|_| format!("a number, not '{word}'"))
}

/// The number of records, if it is given.
fn records_of(words: &[&str]) -> Result<usize, String> {
    match words {
        [] => Ok(usize::MAX),
        [records] => Ok(number(records)? as usize),
        _ => Err(USAGE.to_string()),
    }
}

fn cases_of(file: &str) -> Result<Vec<Case>, String> {
    let bytes = fs::read(file).map_err(|error| format!("{file}: {error}"))?;
    if file.ends_with(".cases") {
        cases::read(&bytes)
    } else {
        cases::parse(&String::from_utf8_lossy(&bytes))
    }
}

/// The answers with a line `# name | words` before each case.
fn list_with_names(cases: &[Case]) -> Result<(), String> {
    for case in cases {
        let words = spell::words(&case.trace);
        let lines = case.answers()?;
        put(format!("# {} | {words}\n{lines}", case.name).as_bytes())?;
    }
    Ok(())
}

fn standard_input() -> Result<Vec<u8>, String> {
    let mut bytes = Vec::new();
    let read = std::io::stdin().read_to_end(&mut bytes);
    read.map_err(|error| format!("standard input: {error}"))?;
    Ok(bytes)
}

fn put(bytes: &[u8]) -> Result<(), String> {
    let written = std::io::stdout().write_all(bytes);
    written.map_err(|error| format!("standard output: {error}"))
}
