//! The part of the crate `bitflags` that `region.rs` uses.

/// Gives a struct around one number its named flags and the operations on them.
#[macro_export]
macro_rules! bitflags {
    (impl $name:ident: $bits:ty { $($(#[$doc:meta])* const $flag:ident = $value:expr;)* }) => {
        impl $name {
            $($(#[$doc])* pub const $flag: Self = Self($value);)*

            /// The number with all its bits.
            pub const fn bits(&self) -> $bits {
                self.0
            }

            /// The value of a number, whatever bits are set in it.
            pub const fn from_bits_retain(bits: $bits) -> Self {
                Self(bits)
            }

            /// Whether a bit is set in both.
            pub const fn intersects(&self, other: Self) -> bool {
                self.0 & other.0 != 0
            }
        }

        impl core::ops::BitOr for $name {
            type Output = Self;

            fn bitor(self, other: Self) -> Self {
                Self(self.0 | other.0)
            }
        }
    };
}
