//! Stands for bitcoin_hashes: the types, with their widths. What it computes is no hash, only a number made of the
//! bytes: document 00 asks for no transaction hashes, and the layout has none that is computed. So nothing about a txid
//! of a whole transaction, an asset id made of an entropy or a pegin's referenced block can be shown.

pub use encoding;

use std::io;

/// Takes bytes and gives "the hash".
pub trait HashEngine {
    type Hash;
    fn finalize(self) -> Self::Hash;
}

pub trait Hash: Sized {
    type Bytes;
    fn from_byte_array(bytes: Self::Bytes) -> Self;
    fn to_byte_array(self) -> Self::Bytes;
}

/// Bytes folded into a number, spread over the width.
pub fn fold(state: u64, bytes: &[u8]) -> u64 {
    bytes.iter().fold(state, |state, &byte| (state ^ u64::from(byte)).wrapping_mul(0x100_0000_01b3))
}

pub fn spread<const N: usize>(state: u64) -> [u8; N] {
    std::array::from_fn(|at| (state.rotate_left(at as u32 * 7) >> 3) as u8)
}

macro_rules! hash {
    ($module:ident, $width:literal) => {
        pub mod $module {
            use super::{fold, io, spread};
            use std::fmt;

            #[derive(Copy, Clone, PartialEq, Eq, PartialOrd, Ord, Hash, Debug, Default)]
            pub struct Hash([u8; $width]);

            #[derive(Clone, Default)]
            pub struct Engine(u64);

            impl io::Write for Engine {
                fn write(&mut self, bytes: &[u8]) -> io::Result<usize> {
                    self.0 = fold(self.0, bytes);
                    Ok(bytes.len())
                }

                fn flush(&mut self) -> io::Result<()> {
                    Ok(())
                }
            }

            impl super::HashEngine for Engine {
                type Hash = Hash;

                fn finalize(self) -> Hash {
                    Hash(spread(self.0))
                }
            }

            impl Hash {
                pub fn engine() -> Engine {
                    Engine::default()
                }

                pub fn from_engine(engine: Engine) -> Hash {
                    Hash(spread(engine.0))
                }

                pub fn hash(bytes: &[u8]) -> Hash {
                    Hash(spread(fold(0, bytes)))
                }

                pub const fn from_byte_array(bytes: [u8; $width]) -> Hash {
                    Hash(bytes)
                }

                pub const fn to_byte_array(self) -> [u8; $width] {
                    self.0
                }

                pub const fn as_byte_array(&self) -> &[u8; $width] {
                    &self.0
                }
            }

            pub fn hash(bytes: &[u8]) -> Hash {
                Hash::hash(bytes)
            }

            impl super::Hash for Hash {
                type Bytes = [u8; $width];

                fn from_byte_array(bytes: [u8; $width]) -> Hash {
                    Hash(bytes)
                }

                fn to_byte_array(self) -> [u8; $width] {
                    self.0
                }
            }

            impl AsRef<[u8]> for Hash {
                fn as_ref(&self) -> &[u8] {
                    &self.0
                }
            }

            impl fmt::Display for Hash {
                fn fmt(&self, f: &mut fmt::Formatter<'_>) -> fmt::Result {
                    self.0.iter().rev().try_for_each(|byte| write!(f, "{byte:02x}"))
                }
            }
        }
    };
}

hash!(sha256, 32);
hash!(sha256d, 32);
hash!(hash160, 20);

/// A hash under a name of its own.
#[macro_export]
macro_rules! hash_newtype {
    ($($(#[$($attribute:tt)*])* $visible:vis struct $name:ident($open:vis $inner:path);)*) => {$(
        $crate::hash_newtype_one! { $(#[$($attribute)*])* $visible struct $name($open $inner); }
    )*};
}

#[macro_export]
macro_rules! hash_newtype_one {
    (
        $(#[doc = $words:expr])* $(#[hash_newtype($($order:tt)*)])?
        $visible:vis struct $name:ident($open:vis $inner:path);
    ) => {
        $(#[doc = $words])*
        #[derive(Copy, Clone, PartialEq, Eq, PartialOrd, Ord, Hash, Debug)]
        $visible struct $name($open $inner);

        #[allow(missing_docs)]
        impl $name {
            pub const fn from_byte_array(bytes: <$inner as $crate::Hash>::Bytes) -> Self {
                Self(<$inner>::from_byte_array(bytes))
            }

            pub const fn to_byte_array(self) -> <$inner as $crate::Hash>::Bytes {
                self.0.to_byte_array()
            }

            pub const fn as_byte_array(&self) -> &<$inner as $crate::Hash>::Bytes {
                self.0.as_byte_array()
            }
        }

        impl $crate::Hash for $name {
            type Bytes = <$inner as $crate::Hash>::Bytes;

            fn from_byte_array(bytes: Self::Bytes) -> Self {
                Self(<$inner>::from_byte_array(bytes))
            }

            fn to_byte_array(self) -> Self::Bytes {
                self.0.to_byte_array()
            }
        }

        impl AsRef<[u8]> for $name {
            fn as_ref(&self) -> &[u8] {
                self.0.as_ref()
            }
        }

        impl ::core::fmt::Display for $name {
            fn fmt(&self, f: &mut ::core::fmt::Formatter<'_>) -> ::core::fmt::Result {
                ::core::fmt::Display::fmt(&self.0, f)
            }
        }
    };
}

/// Text forms: none.
#[macro_export]
macro_rules! impl_hex_for_newtype {
    ($($name:ident),*) => {};
}
