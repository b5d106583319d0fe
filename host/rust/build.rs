//! Says where the static library lies: `MMC5_LIB`, or target/staticlib of the repository.

use std::{env, path::PathBuf};

fn main() {
    let here = PathBuf::from(env::var("CARGO_MANIFEST_DIR").expect("cargo sets it"));
    let default = here.join("../../target/staticlib");
    let folder = env::var("MMC5_LIB").map_or(default, PathBuf::from);
    println!("cargo:rerun-if-env-changed=MMC5_LIB");
    println!("cargo:rustc-link-search=native={}", folder.display());
    println!("cargo:rerun-if-changed={}", folder.join("libmmc5.a").display());
    println!("cargo:rustc-link-lib=static=mmc5");
}
