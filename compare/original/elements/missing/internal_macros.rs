//! Stands for `src/internal_macros.rs`: the macros that the text calls and doesn't define. What each writes was
//! inferred from the calls.
//!
//! It can't show what a decoder does after it has failed or is done, nor with which byte an error comes: that is
//! decided in the original's macros.

/// A decoder about another one whose output is turned into the type's value. In the text no turning fails; the error
/// named in it (often one that isn't in scope where it stands) isn't used.
macro_rules! decoder_newtype {
    (
        $(#[$attribute:meta])* $visible:vis struct $decoder:ident($inner:ty);
        $(#[$error_attribute:meta])* $error_visible:vis struct $error:ident($inner_error:ty);
        const ERROR_DISPLAY = $words:literal;
        impl Decode for $value:ident {
            fn convert_inner($output:ident) -> Result<_, $unused:tt> $body:block
        }
    ) => {
        $(#[$attribute])*
        $visible struct $decoder($inner);

        $(#[$error_attribute])*
        $error_visible struct $error($inner_error);

        impl ::core::fmt::Display for $error {
            fn fmt(&self, f: &mut ::core::fmt::Formatter<'_>) -> ::core::fmt::Result {
                f.write_str($words)
            }
        }

        impl ::std::error::Error for $error {
            fn source(&self) -> Option<&(dyn ::std::error::Error + 'static)> {
                Some(&self.0)
            }
        }

        impl $decoder {
            fn convert_inner(
                $output: <$inner as crate::encoding::Decoder>::Output,
            ) -> Result<$value, ::core::convert::Infallible> $body
        }

        impl crate::encoding::Decoder for $decoder {
            type Output = $value;
            type Error = $error;

            fn push_bytes(&mut self, bytes: &mut &[u8]) -> Result<crate::encoding::DecoderStatus, $error> {
                crate::encoding::Decoder::push_bytes(&mut self.0, bytes).map_err($error)
            }

            fn end(self) -> Result<$value, $error> {
                match Self::convert_inner(crate::encoding::Decoder::end(self.0).map_err($error)?) {
                    Ok(value) => Ok(value),
                    Err(never) => match never {},
                }
            }

            fn read_limit(&self) -> usize {
                crate::encoding::Decoder::read_limit(&self.0)
            }
        }

        impl crate::encoding::Decode for $value {
            type Decoder = $decoder;
        }
    };
}

/// A decoder that goes from state to state. Each has a decoder and what was read before; once its decoder is done, the
/// transition of its name says what comes next, or refuses.
macro_rules! decoder_state_machine {
    (
        $(#[$attribute:meta])* $visible:vis struct $decoder:ident(enum $inner:ident {
            Done($value:ident),
            Errored,
            $($state:ident {
                decoder: $part:ty $(, $field:ident: $kind:ty)* $(,)?
                => $transition:ident($output:ident, ...) -> Result $body:block
            },)*
        });
        $(#[$error_attribute:meta])* $error_visible:vis struct $error:ident(enum $error_inner:ident {
            [macro-inserted decoder variants]
            $($variants:tt)*
        });
    ) => {
        $(#[$attribute])*
        $visible struct $decoder($inner);

        enum $inner {
            Done($value),
            Errored,
            $($state { decoder: $part, $($field: $kind),* },)*
        }

        $(#[$error_attribute])*
        $error_visible struct $error($error_inner);

        $(#[$error_attribute])*
        enum $error_inner {
            $($state(<$part as crate::encoding::Decoder>::Error),)*
            $($variants)*
        }

        impl $decoder {
            $(fn $transition(
                $output: <$part as crate::encoding::Decoder>::Output,
                $($field: $kind),*
            ) -> Result<$inner, $error_inner> $body)*

            /// The state behind this one, whose decoder is done.
            fn next(state: $inner) -> Result<$inner, $error> {
                match state {
                    $($inner::$state { decoder, $($field),* } => {
                        let output = crate::encoding::Decoder::end(decoder);
                        let output = output.map_err(|error| $error($error_inner::$state(error)))?;
                        Self::$transition(output, $($field),*).map_err($error)
                    })*
                    ended => Ok(ended),
                }
            }
        }

        impl crate::encoding::Decoder for $decoder {
            type Output = $value;
            type Error = $error;

            fn push_bytes(&mut self, bytes: &mut &[u8]) -> Result<crate::encoding::DecoderStatus, $error> {
                loop {
                    let status = match self.0 {
                        $inner::Done(_) => return Ok(crate::encoding::DecoderStatus::Ready),
                        $inner::Errored => panic!("a failed decoder was used again"),
                        $($inner::$state { ref mut decoder, .. } => {
                            let pushed = crate::encoding::Decoder::push_bytes(decoder, bytes);
                            pushed.map_err(|error| $error($error_inner::$state(error)))
                        })*
                    };
                    match status {
                        Ok(more @ crate::encoding::DecoderStatus::NeedsMore) => return Ok(more),
                        Ok(crate::encoding::DecoderStatus::Ready) => {
                            self.0 = Self::next(::core::mem::replace(&mut self.0, $inner::Errored))?;
                        }
                        Err(error) => {
                            self.0 = $inner::Errored;
                            return Err(error);
                        }
                    }
                }
            }

            fn end(self) -> Result<$value, $error> {
                let mut state = self.0;
                loop {
                    state = match state {
                        $inner::Done(value) => return Ok(value),
                        $inner::Errored => panic!("a failed decoder was used again"),
                        state => Self::next(state)?,
                    };
                }
            }

            fn read_limit(&self) -> usize {
                match self.0 {
                    $($inner::$state { ref decoder, .. } => crate::encoding::Decoder::read_limit(decoder),)*
                    _ => 0,
                }
            }
        }

        impl crate::encoding::Decode for $value {
            type Decoder = $decoder;
        }
    };
}

/// The older reading and writing of a struct: its fields in the order named.
macro_rules! impl_consensus_encoding {
    ($name:ident, $($field:ident),+) => {
        impl crate::encode::Encodable for $name {
            fn consensus_encode<W: ::std::io::Write>(&self, mut writer: W) -> Result<usize, crate::encode::Error> {
                Ok(0 $(+ self.$field.consensus_encode(&mut writer)?)+)
            }
        }

        impl crate::encode::Decodable for $name {
            fn consensus_decode<R: ::std::io::Read>(mut reader: R) -> Result<Self, crate::encode::Error> {
                Ok($name { $($field: crate::encode::Decodable::consensus_decode(&mut reader)?),+ })
            }
        }
    };
}

/// 32 bytes under a name.
macro_rules! impl_sha256_midstate_wrapper {
    ($(#[$attribute:meta])* pub struct $name:ident([u8; 32]);) => {
        $(#[$attribute])*
        #[derive(Copy, Clone, PartialEq, Eq, PartialOrd, Ord, Hash, Debug, Default)]
        pub struct $name([u8; 32]);

        impl $name {
            pub const fn from_byte_array(bytes: [u8; 32]) -> Self {
                Self(bytes)
            }

            pub const fn to_byte_array(self) -> [u8; 32] {
                self.0
            }

            pub const fn as_byte_array(&self) -> &[u8; 32] {
                &self.0
            }

            pub fn from_midstate(bytes: [u8; 32]) -> Self {
                Self(bytes)
            }
        }

        impl ::core::fmt::Display for $name {
            fn fmt(&self, f: &mut ::core::fmt::Formatter<'_>) -> ::core::fmt::Result {
                self.0.iter().rev().try_for_each(|byte| write!(f, "{:02x}", byte))
            }
        }
    };
}

/// Text forms: none.
macro_rules! serde_struct_human_string_impl {
    ($($any:tt)*) => {};
}

macro_rules! serde_string_impl {
    ($($any:tt)*) => {};
}
