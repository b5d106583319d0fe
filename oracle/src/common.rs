//! Stands in for tetanes-core's `common`: the two enums that the board names.
//!
//! The region drives sound alone, and `Exrom::reset` ignores the kind of reset, so no answer can
//! depend on either.

#[derive(Debug, Default, Clone, Copy, PartialEq, Eq)]
pub enum NesRegion {
    #[default]
    Ntsc,
}

#[derive(Debug, Clone, Copy, PartialEq, Eq)]
pub enum ResetKind {
    Soft,
}
