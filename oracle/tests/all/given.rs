//! The two given files are byte for byte those of tetanes-core 0.17.0.

use crate::{file, sha256};

fn check(path: &str, hash: &str) {
    let bytes = std::fs::read(file(path)).expect("the file");
    assert_eq!(sha256::hex(&bytes), hash, "{path} is changed");
}

#[test]
fn m005_exrom_is_unchanged() {
    check(
        "src/mapper/m005_exrom.rs",
        "b1f2d21de20578c090fadd5a646028abd42fa5563f55f226d8664f52bc65cb93",
    );
}

#[test]
fn memory_is_unchanged() {
    check(
        "src/memory.rs",
        "fe4a23dbdf66c6147035a38d19f2ac690295a3529efebd87953be289a9dabb50",
    );
}
