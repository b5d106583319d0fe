//! Stands in for the crate `tracing`.
//!
//! The given files log in two arms that a number masked to two bits cannot reach. The message is
//! formatted and dropped, so no answer can depend on it.

/// Log a warning: drop it.
#[macro_export]
macro_rules! warn {
    ($($part:tt)*) => {
        let _ = format!($($part)*);
    };
}
