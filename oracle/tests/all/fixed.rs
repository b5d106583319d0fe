//! The stored lists are what their texts make.

use crate::file;
use oracle::{
    cases::{self, Case},
    spell,
    trace::Reader,
    windows,
};
use std::{collections::HashSet, fs};

fn list(name: &str) -> Vec<Case> {
    let text = fs::read_to_string(file(&format!("fixed/{name}.txt"))).expect("the list");
    cases::parse(&text).expect("cases")
}

fn check(name: &str) {
    let cases = list(name);
    let stored = |kind: &str| fs::read(file(&format!("fixed/{name}.{kind}"))).expect("the file");
    assert!(
        cases::bytes(&cases) == stored("cases"),
        "{name}.cases: run `oracle fix`"
    );
    let answers = cases::answers(&cases).expect("load takes every cartridge");
    assert!(
        answers.as_bytes() == stored("answers"),
        "{name}.answers: run `oracle fix`"
    );
}

#[test]
fn cpu_list() {
    check("cpu");
}

#[test]
fn ppu_list() {
    check("ppu");
}

#[test]
fn stored_windows() {
    let stored = fs::read_to_string(file("fixed/windows.answers")).expect("the file");
    assert!(
        stored == windows::lines(),
        "windows.answers: run `oracle fix`"
    );
}

/// Document 01, module 2: banks = max(1, length / window); start = (bank mod banks) x window; page i
/// starts at (start + 1,024 i) mod length. An empty buffer maps blank.
#[test]
fn windows_follow_the_rule() {
    for line in windows::lines().lines() {
        let (head, pages) = line.split_once(':').expect("a colon");
        let numbers: Vec<usize> = head
            .split(' ')
            .map(|n| n.parse().expect("a number"))
            .collect();
        let [window, length, bank] = numbers[..] else {
            panic!("{line}");
        };
        let start = bank % (length / window).max(1) * window;
        let rule = (0..window / 1_024).map(|i| match length {
            0 => " blank".to_string(),
            _ => format!(" {}", (start + 1_024 * i) % length / 1_024),
        });
        assert_eq!(pages, rule.collect::<String>(), "{line}");
    }
}

#[test]
fn words_spell_their_traces() {
    for case in list("cpu").into_iter().chain(list("ppu")) {
        let words = case.words.expect("words above each case");
        assert_eq!(spell::bytes(&words), Ok(case.trace), "{}", case.name);
    }
}

#[test]
fn names_are_unique() {
    let mut names = HashSet::new();
    for case in list("cpu").into_iter().chain(list("ppu")) {
        assert!(names.insert(case.name.clone()), "{} twice", case.name);
    }
}

#[test]
fn cpu_list_has_no_fetch_no_clock_and_no_ppu_memory_write() {
    for case in list("cpu") {
        let mut reader = Reader::new(&case.trace).expect("short");
        while let Ok(Some(record)) = reader.next_record() {
            assert!([1, 2, 3, 5].contains(&record.kind()), "{}", case.name);
        }
    }
}

#[test]
fn bytes_read_back() {
    for name in ["cpu", "ppu"] {
        let cases = list(name);
        let read = cases::read(&cases::bytes(&cases)).expect("bytes");
        assert_eq!(read.len(), cases.len());
        for (left, right) in read.iter().zip(&cases) {
            assert_eq!(left.cartridge, right.cartridge, "{}", right.name);
            assert_eq!(left.trace, right.trace, "{}", right.name);
            assert_eq!(left.peeks, right.peeks, "{}", right.name);
            assert_eq!(left.counters, right.counters, "{}", right.name);
        }
    }
    assert!(cases::read(&[1, 0]).is_err());
    let peeked = [2, 1, 0, 0, 0, 0, 0, 0, 0, 0, 0, 1, 2, 0, 4];
    assert!(cases::read(&peeked).is_ok_and(|cases| cases.len() == 1 && cases[0].peeks.len() == 1));
    assert!(cases::read(&peeked[..14]).is_err() && cases::read(&peeked[..11]).is_err());
    let counted = [3, 1, 0, 0, 0, 0, 0, 0, 0, 0, 0, 1, 2, 0, 4, 0, 0];
    assert!(cases::read(&counted).is_ok_and(|cases| cases[0].counters.is_some()));
    assert!(cases::read(&counted[..16]).is_err());
}
