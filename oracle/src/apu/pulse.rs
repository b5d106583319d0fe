//! Stands in for tetanes-core's `apu::pulse`: a pulse channel that plays nothing.
//!
//! Only $5015 reads it back, and refusal 6 takes no read or peek of $5015.

#[derive(Debug, Clone, Copy)]
pub enum PulseChannel {
    One,
    Two,
}

#[derive(Debug, Clone, Copy)]
pub enum OutputFreq {
    Ultrasonic,
}

#[derive(Debug, Clone)]
pub struct LengthCounter {
    pub counter: u8,
}

impl LengthCounter {
    pub fn reload(&mut self) {}
}

#[derive(Debug, Clone)]
pub struct Pulse {
    pub length: LengthCounter,
}

impl Pulse {
    pub const fn new(_channel: PulseChannel, _output_freq: OutputFreq) -> Self {
        Self {
            length: LengthCounter { counter: 0 },
        }
    }

    pub fn write_ctrl(&mut self, _val: u8) {}

    pub fn write_timer_lo(&mut self, _val: u8) {}

    pub fn write_timer_hi(&mut self, _val: u8) {}

    pub fn set_enabled(&mut self, _enabled: bool) {}

    pub fn clock(&mut self) {}

    pub fn clock_half_frame(&mut self) {}

    pub const fn level(&self) -> u8 {
        0
    }
}
