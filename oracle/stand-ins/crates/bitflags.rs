//! The macro that declares `JointAxesMask`, with the operations that the Rust asks of a mask.
#![no_std]

#[macro_export]
macro_rules! bitflags(
    (
        $(#[$outer: meta])*
        pub struct $Mask: ident: $Bits: ty {
            $($(#[$inner: meta])* const $NAME: ident = $bits: expr;)*
        }
    ) => {
        $(#[$outer])*
        pub struct $Mask($Bits);

        impl $Mask {
            $($(#[$inner])* pub const $NAME: $Mask = $Mask($bits);)*

            /// No bit.
            pub const fn empty() -> $Mask {
                $Mask(0)
            }

            /// The mask as a number.
            pub const fn bits(&self) -> $Bits {
                self.0
            }

            /// The mask of these bits, if each of them has a name.
            pub const fn from_bits(bits: $Bits) -> Option<$Mask> {
                if bits & !(0 $(| $Mask::$NAME.0)*) == 0 {
                    Some($Mask(bits))
                } else {
                    None
                }
            }

            /// Whether there is no bit.
            pub const fn is_empty(&self) -> bool {
                self.0 == 0
            }

            /// Whether each bit of the other is one of this mask's.
            pub const fn contains(&self, other: $Mask) -> bool {
                other.0 & !self.0 == 0
            }
        }

        impl core::ops::BitAnd for $Mask {
            type Output = $Mask;
            fn bitand(self, other: $Mask) -> $Mask {
                $Mask(self.0 & other.0)
            }
        }

        impl core::ops::BitOrAssign for $Mask {
            fn bitor_assign(&mut self, other: $Mask) {
                self.0 |= other.0
            }
        }
    }
);
