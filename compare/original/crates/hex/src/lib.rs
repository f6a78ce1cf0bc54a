//! Stands for the crate hex-conservative: text forms. No reading or writing of a transaction uses it; decoding text
//! isn't there at all.

use std::fmt;

macro_rules! error {
    ($name:ident) => {
        #[derive(Clone, PartialEq, Eq, Debug)]
        pub struct $name;

        impl fmt::Display for $name {
            fn fmt(&self, f: &mut fmt::Formatter<'_>) -> fmt::Result {
                f.write_str("text isn't decoded here")
            }
        }

        impl std::error::Error for $name {}
    };
}

error!(DecodeFixedLengthBytesError);
error!(DecodeVariableLengthBytesError);

pub fn decode_to_array<const N: usize>(_: &str) -> Result<[u8; N], DecodeFixedLengthBytesError> {
    Err(DecodeFixedLengthBytesError)
}

pub fn decode_to_vec(_: &str) -> Result<Vec<u8>, DecodeVariableLengthBytesError> {
    Err(DecodeVariableLengthBytesError)
}

pub trait DisplayHex {
    fn as_hex(&self) -> String;

    fn to_lower_hex_string(&self) -> String {
        self.as_hex()
    }
}

impl DisplayHex for [u8] {
    fn as_hex(&self) -> String {
        self.iter().map(|byte| format!("{byte:02x}")).collect()
    }
}

#[macro_export]
macro_rules! impl_fmt_traits {
    (#[display_backward(true)] impl fmt_traits for $name:ident { const LENGTH: usize = $length:literal; }) => {
        impl ::core::fmt::Display for $name {
            fn fmt(&self, f: &mut ::core::fmt::Formatter<'_>) -> ::core::fmt::Result {
                let bytes: &[u8] = ::core::borrow::Borrow::borrow(self);
                bytes.iter().rev().try_for_each(|byte| write!(f, "{byte:02x}"))
            }
        }

        impl ::core::fmt::Debug for $name {
            fn fmt(&self, f: &mut ::core::fmt::Formatter<'_>) -> ::core::fmt::Result {
                ::core::fmt::Display::fmt(self, f)
            }
        }
    };
}
