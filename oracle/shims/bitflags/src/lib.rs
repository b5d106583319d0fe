//! Stands in for the crate `bitflags`: a struct over one number with named constants.
//!
//! The given files use the constants, `empty`, `bits`, `contains` and `|`. Each is one operation
//! on the number, as in the crate, so no answer can depend on which of the two is used.

/// Declare a set of flags.
#[macro_export]
macro_rules! bitflags {
    (
        $(#[$outer:meta])*
        $vis:vis struct $name:ident: $number:ty {
            $($(#[$inner:meta])* const $flag:ident = $value:expr;)*
        }
    ) => {
        $(#[$outer])*
        $vis struct $name($number);

        impl $name {
            $($(#[$inner])* pub const $flag: Self = Self($value);)*

            /// No flag.
            pub const fn empty() -> Self {
                Self(0)
            }

            /// The number behind the flags.
            pub const fn bits(self) -> $number {
                self.0
            }

            /// Whether all flags of `other` are set.
            pub const fn contains(self, other: Self) -> bool {
                self.0 & other.0 == other.0
            }
        }

        impl ::core::ops::BitOr for $name {
            type Output = Self;

            fn bitor(self, other: Self) -> Self {
                Self(self.0 | other.0)
            }
        }
    };
}
