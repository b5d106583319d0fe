//! Answers that document 01 and the table of readings give.

use crate::{board, file};
use oracle::{cases, replay, spell};

#[test]
fn worked_example() {
    let hex = "01 80 C0 03 02 85 A4 01 07 01 85 A4 01 01 86 A4 01 00 04 80 40";
    let trace = spell::from_hex(hex).expect("hex");
    let lines = "0 1 M 24 0\n1 2 - 0\n2 1 R 249 0\n3 1 R 6 0\n4 0 - 0\n5 4 M 0 0\nend 6\n";
    assert_eq!(replay::lines(&mut board("-"), &trace), lines);
}

/// The last answer of each reading, with the interrupt after it.
const READINGS: [(&str, &str); 24] = [
    ("readings-01", "S 0 0"),
    ("readings-02", "R 0 0"),
    ("readings-03", "R 128 0"),
    ("readings-04", "R 192 0"),
    ("readings-05", "R 192 0"),
    ("readings-06", "R 64 0"),
    ("readings-07", "R 64 0"),
    ("readings-08", "M 1 0"),
    ("readings-09", "M 135 0"),
    ("readings-10", "M 0 0"),
    ("readings-11", "M 1 0"),
    ("readings-12", "M 129 0"),
    ("readings-13", "R 3 0"),
    ("readings-14", "S 0 0"),
    ("readings-15", "M 0 0"),
    ("readings-16", "R 8 0"),
    ("readings-17", "M 132 0"),
    ("readings-18", "R 0 0"),
    ("readings-19", "R 64 0"),
    ("readings-20", "R 64 0"),
    ("readings-21", "M 1 0"),
    ("readings-22", "M 5 0"),
    ("readings-23", "R 0 0"),
    ("readings-24", "? 10"),
];

/// What $5204 reads after each history: 128 for the flag, 64 for in frame.
const DEMAND_3: [(&str, &str); 8] = [
    ("demand3-pattern-fetches-end-no-run", "R 64 0"),
    ("demand3-mirror-fetches-end-a-run", "R 0 0"),
    ("demand3-a-run-has-one-line", "R 64 0"),
    ("demand3-a-break-keeps-the-flag", "R 128 0"),
    ("demand3-disable-keeps-the-flag", "R 192 0"),
    ("demand3-a-5204-read-is-no-break", "R 64 0"),
    ("demand3-pattern-fetches-leave-clocks-idle", "R 0 0"),
    ("demand3-two-idle-clocks-break-nothing", "R 64 0"),
];

/// The examples at the edges that end in one answer.
const EDGES: [(&str, &str); 10] = [
    ("edge-prg-262144-last-bank", "R 254 0"),
    ("edge-5101-in-attribute-mode", "R 1 0"),
    ("edge-three-equal", "R 64 0"),
    ("edge-four-equal", "R 64 0"),
    ("edge-four-equal-with-5203", "R 64 0"),
    ("edge-flag-read-once", "R 64 0"),
    ("edge-third-idle-clock", "R 0 0"),
    ("edge-mode-0-stores-0-then-9", "M 9 0"),
    ("edge-5001-taken-5002-refused", "2 ! 6"),
    ("edge-line-65278-taken-65279-refused", "4 ! 7"),
];

/// The last line of a named case, without the record number and, of an accepted one, the kind.
fn last_answers(name: &str) -> Vec<String> {
    let mut found = Vec::new();
    for list in ["fixed/cpu.txt", "fixed/ppu.txt"] {
        let text = std::fs::read_to_string(file(list)).expect("the list");
        for case in cases::parse(&text).expect("cases") {
            if case.name == name {
                let lines = case.answers().expect("load takes it");
                let mut lines = lines.lines().filter(|line| !line.starts_with("end"));
                found.push(lines.next_back().expect("a record").to_string());
            }
        }
    }
    found
}

fn check(rows: &[(&str, &str)]) {
    for (name, expected) in rows {
        let [line] = &last_answers(name)[..] else {
            panic!("{name} is not there once");
        };
        assert!(
            line.ends_with(&format!(" {expected}")),
            "{name}: {line}, not {expected}"
        );
    }
}

#[test]
fn readings() {
    check(&READINGS);
}

#[test]
fn misreadings_of_demand_3() {
    check(&DEMAND_3);
}

#[test]
fn edges() {
    check(&EDGES);
}
