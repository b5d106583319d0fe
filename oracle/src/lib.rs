//! The oracle: the MMC5 board of tetanes-core 0.17.0, answering in the words of document 01.
//!
//! Given, byte for byte: `mapper::m005_exrom` and `memory`. Stand-ins for what those lean on:
//! `apu`, `cart`, `common`, `cpu`, `mapper`, `ppu`, and the crates under shims/. Ours: the rest.

pub mod apu;
pub mod cart;
pub mod common;
pub mod cpu;
pub mod mapper;
// Given: the board leaves a part of it unused, and no tool may format it.
#[allow(dead_code)]
#[rustfmt::skip]
pub mod memory;
pub mod ppu;

pub mod board;
pub mod cartridge;
pub mod cases;
pub mod cli;
pub mod generate;
pub mod peeks;
pub mod refusal;
pub mod replay;
pub mod show;
pub mod spell;
pub mod trace;
pub mod windows;
