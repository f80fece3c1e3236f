//! The part of the `bitflags` macro that the original's `hcd/hub.rs` uses.
//! As there, bits that no constant names are kept.

#[macro_export]
macro_rules! bitflags {
    ($(
        $(#[$meta:meta])*
        pub struct $name:ident: $bits:ty {
            $(const $flag:ident = $value:expr;)*
        }
    )*) => {$(
        $(#[$meta])*
        #[repr(transparent)]
        pub struct $name {
            bits: $bits,
        }

        impl $name {
            $(pub const $flag: $name = $name { bits: $value };)*

            pub fn contains(&self, other: $name) -> bool {
                self.bits & other.bits == other.bits
            }

            pub fn insert(&mut self, other: $name) {
                self.bits |= other.bits;
            }
        }
    )*};
}
