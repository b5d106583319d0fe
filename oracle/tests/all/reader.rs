//! The trace reader at its edges.

use oracle::{
    refusal::Refusal,
    spell,
    trace::{LONGEST, Reader, Record},
};

fn first(hex: &str) -> Result<Option<Record>, Refusal> {
    let bytes = spell::from_hex(hex).expect("hex");
    Reader::new(&bytes).expect("short").next_record()
}

#[test]
fn numbers_in_shortest_form_are_read() {
    assert_eq!(first(""), Ok(None));
    assert_eq!(first("01 00"), Ok(Some(Record::CpuRead(0))));
    assert_eq!(first("01 7F"), Ok(Some(Record::CpuRead(0x7F))));
    assert_eq!(first("01 80 01"), Ok(Some(Record::CpuRead(0x80))));
    assert_eq!(first("01 FF 7F"), Ok(Some(Record::CpuRead(0x3FFF))));
    assert_eq!(first("01 80 80 01"), Ok(Some(Record::CpuRead(0x4000))));
    assert_eq!(first("01 FF FF 03"), Ok(Some(Record::CpuRead(0xFFFF))));
    assert_eq!(first("02 00 FF 01"), Ok(Some(Record::CpuWrite(0, 0xFF))));
}

#[test]
fn other_numbers_are_refused() {
    let cut = ["01", "01 80", "01 80 80", "02 00", "02 00 80"];
    let padded = ["01 80 00", "01 80 80 00", "02 00 80 00", "02 80 00 00"];
    let above = ["01 80 80 04", "01 FF FF 7F", "02 00 80 02", "02 00 FF 7F"];
    let endless = [
        "01 80 80 80 00",
        "02 00 80 80 00",
        "01 FF FF FF FF",
        "02 00 FF FF",
    ];
    for hex in [cut, ["01"; 5]]
        .concat()
        .into_iter()
        .chain(padded)
        .chain(above)
        .chain(endless)
    {
        assert_eq!(first(hex), Err(Refusal::Number), "{hex}");
    }
}

#[test]
fn kinds_above_6_are_refused() {
    for kind in 7..=255u8 {
        let refused = Reader::new(&[kind]).expect("short").next_record();
        assert_eq!(refused, Err(Refusal::Kind));
    }
}

#[test]
fn a_refusal_leaves_the_place_at_the_kind_byte() {
    let bytes = spell::from_hex("00 01 84 A4 01 02 00 80 00").expect("hex");
    let mut reader = Reader::new(&bytes).expect("short");
    assert_eq!(reader.next_record(), Ok(Some(Record::Clock)));
    assert_eq!(reader.next_record(), Ok(Some(Record::CpuRead(0x5204))));
    assert_eq!(reader.next_record(), Err(Refusal::Number));
    assert_eq!(reader.place(), 5);
}

#[test]
fn length() {
    assert!(Reader::new(&[0; LONGEST]).is_ok());
    let refused = Reader::new(&[0; LONGEST + 1]).map(|_| ());
    assert_eq!(refused, Err(Refusal::Length));
}

#[test]
fn what_is_written_is_read() {
    for addr in (0..=0xFFFF).step_by(17) {
        for record in [
            Record::CpuRead(addr),
            Record::PpuFetch(addr),
            Record::CpuWrite(addr, addr as u8),
            Record::PpuRegisterWrite(addr, addr as u8),
            Record::PpuMemoryWrite(addr, addr as u8),
        ] {
            let mut bytes = Vec::new();
            record.write(&mut bytes);
            let mut reader = Reader::new(&bytes).expect("short");
            assert_eq!(reader.next_record(), Ok(Some(record)));
            assert_eq!(reader.next_record(), Ok(None));
        }
    }
}
