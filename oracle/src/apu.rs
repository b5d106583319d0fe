//! Stands in for tetanes-core's `apu`: silent channels.
//!
//! Sound is outside the board that is compared (document 01, "Left"), and refusal 6 keeps every
//! call away from the registers that reach these types. `Exrom::clock` runs them, and they change
//! nothing but themselves. `output` alone reads the tables, and nothing calls it.

pub mod dmc;
pub mod pulse;

/// Mixer table of the two pulse channels.
pub static PULSE_TABLE: [f32; 1] = [0.0];

/// Mixer table of the sample channel.
pub static TND_TABLE: [f32; 1] = [0.0];
