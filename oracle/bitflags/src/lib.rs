//! Stand-in for the bitflags crate: only the form and the methods that the queue uses.
#![no_std]

/// Gives an existing one-field struct its named bits and the few set operations in use.
#[macro_export]
macro_rules! bitflags {
    (impl $name:ident: $bits:ty { $(const $flag:ident = $value:expr;)* }) => {
        impl $name {
            $(const $flag: Self = Self($value);)*

            const fn empty() -> Self {
                Self(0)
            }

            const fn contains(&self, wanted: Self) -> bool {
                self.0 & wanted.0 == wanted.0
            }

            fn remove(&mut self, gone: Self) {
                self.0 &= !gone.0;
            }
        }

        impl ::core::ops::BitOr for $name {
            type Output = Self;

            fn bitor(self, more: Self) -> Self {
                Self(self.0 | more.0)
            }
        }
    };
}
