//! Encoders. Each shows a chunk of bytes, and moves on to the next one.

use std::io;

/// Whether there is a further chunk. The text asks `has_more` and `has_finished` of it and names both cases.
#[derive(Clone, Copy, PartialEq, Eq, Debug)]
pub enum EncoderStatus {
    HasMore,
    Finished,
}

impl EncoderStatus {
    pub fn has_more(self) -> bool {
        self == EncoderStatus::HasMore
    }

    pub fn has_finished(self) -> bool {
        self == EncoderStatus::Finished
    }
}

/// As the text implements it (encoders.rs:121-149, confidential/mod.rs:62-83). A chunk may be empty.
pub trait Encoder {
    fn current_chunk(&self) -> &[u8];
    fn advance(&mut self) -> EncoderStatus;
}

pub trait ExactSizeEncoder: Encoder {
    fn len(&self) -> usize;
}

pub trait Encode {
    type Encoder<'e>: Encoder
    where
        Self: 'e;

    fn encoder(&self) -> Self::Encoder<'_>;
}

impl<E: Encoder> Encoder for Option<E> {
    fn current_chunk(&self) -> &[u8] {
        self.as_ref().map(Encoder::current_chunk).unwrap_or_default()
    }

    fn advance(&mut self) -> EncoderStatus {
        self.as_mut().map_or(EncoderStatus::Finished, Encoder::advance)
    }
}

impl<E: ExactSizeEncoder> ExactSizeEncoder for Option<E> {
    fn len(&self) -> usize {
        self.as_ref().map_or(0, ExactSizeEncoder::len)
    }
}

/// Encoders of a single chunk.
macro_rules! one_chunk {
    ($name:ty, $($generics:tt)*) => {
        impl<$($generics)*> Encoder for $name {
            fn current_chunk(&self) -> &[u8] {
                &self.bytes[..]
            }

            fn advance(&mut self) -> EncoderStatus {
                EncoderStatus::Finished
            }
        }

        impl<$($generics)*> ExactSizeEncoder for $name {
            fn len(&self) -> usize {
                self.bytes.len()
            }
        }
    };
}

#[derive(Clone, Debug)]
pub struct ArrayEncoder<const N: usize> {
    bytes: [u8; N],
}

impl<const N: usize> ArrayEncoder<N> {
    pub fn without_length_prefix(bytes: [u8; N]) -> Self {
        ArrayEncoder { bytes }
    }
}

one_chunk!(ArrayEncoder<N>, const N: usize);

#[derive(Clone, Debug)]
pub struct ArrayRefEncoder<'e, const N: usize> {
    bytes: &'e [u8; N],
}

impl<'e, const N: usize> ArrayRefEncoder<'e, N> {
    pub fn without_length_prefix(bytes: &'e [u8; N]) -> Self {
        ArrayRefEncoder { bytes }
    }
}

one_chunk!(ArrayRefEncoder<'_, N>, const N: usize);

#[derive(Clone, Debug)]
pub struct BytesEncoder<'e> {
    bytes: &'e [u8],
}

impl<'e> BytesEncoder<'e> {
    pub fn without_length_prefix(bytes: &'e [u8]) -> Self {
        BytesEncoder { bytes }
    }
}

one_chunk!(BytesEncoder<'_>,);

/// A count or length in its shortest form, by Bitcoin's public CompactSize rule.
#[derive(Clone, Debug)]
pub struct CompactSizeEncoder {
    bytes: [u8; 9],
    width: usize,
}

impl CompactSizeEncoder {
    pub fn new(number: usize) -> Self {
        let number = number as u64;
        let (first, width) = match number {
            0..=0xfc => (number as u8, 1),
            0xfd..=0xffff => (0xfd, 3),
            0x1_0000..=0xffff_ffff => (0xfe, 5),
            _ => (0xff, 9),
        };
        let mut bytes = [0; 9];
        bytes[0] = first;
        bytes[1..width].copy_from_slice(&number.to_le_bytes()[..width - 1]);
        CompactSizeEncoder { bytes, width }
    }

    pub fn encoded_size(number: usize) -> usize {
        Self::new(number).width
    }

    pub fn len(&self) -> usize {
        self.width
    }
}

impl Encoder for CompactSizeEncoder {
    fn current_chunk(&self) -> &[u8] {
        &self.bytes[..self.width]
    }

    fn advance(&mut self) -> EncoderStatus {
        EncoderStatus::Finished
    }
}

impl ExactSizeEncoder for CompactSizeEncoder {
    fn len(&self) -> usize {
        self.width
    }
}

/// Encoders in a row.
macro_rules! encoder_of {
    ($name:ident, $last:literal: $($letter:ident $field:ident $number:literal),*) => {
        #[derive(Clone, Debug)]
        pub struct $name<$($letter),*> {
            $($field: $letter,)*
            at: u8,
        }

        impl<$($letter),*> $name<$($letter),*> {
            pub fn new($($field: $letter),*) -> Self {
                $name { $($field,)* at: 0 }
            }
        }

        impl<$($letter: Encoder),*> Encoder for $name<$($letter),*> {
            fn current_chunk(&self) -> &[u8] {
                match self.at {
                    $($number => self.$field.current_chunk(),)*
                    _ => &[],
                }
            }

            fn advance(&mut self) -> EncoderStatus {
                let status = match self.at {
                    $($number => self.$field.advance(),)*
                    _ => EncoderStatus::Finished,
                };
                if status.has_finished() && self.at < $last {
                    self.at += 1;
                    return EncoderStatus::HasMore;
                }
                status
            }
        }

        impl<$($letter: ExactSizeEncoder),*> ExactSizeEncoder for $name<$($letter),*> {
            fn len(&self) -> usize {
                0 $(+ if self.at <= $number { self.$field.len() } else { 0 })*
            }
        }
    };
}

encoder_of!(Encoder2, 1: A a 0, B b 1);
encoder_of!(Encoder3, 2: A a 0, B b 1, C c 2);
encoder_of!(Encoder4, 3: A a 0, B b 1, C c 2, D d 3);
encoder_of!(Encoder6, 5: A a 0, B b 1, C c 2, D d 3, E e 4, F f 5);

/// A length and so many bytes.
#[derive(Clone, Debug)]
pub struct PrefixedBytesEncoder<'e> {
    inner: Encoder2<CompactSizeEncoder, BytesEncoder<'e>>,
}

impl<'e> PrefixedBytesEncoder<'e> {
    pub fn new(bytes: &'e [u8]) -> Self {
        let length = CompactSizeEncoder::new(bytes.len());
        PrefixedBytesEncoder { inner: Encoder2::new(length, BytesEncoder::without_length_prefix(bytes)) }
    }
}

impl Encoder for PrefixedBytesEncoder<'_> {
    fn current_chunk(&self) -> &[u8] {
        self.inner.current_chunk()
    }

    fn advance(&mut self) -> EncoderStatus {
        self.inner.advance()
    }
}

impl ExactSizeEncoder for PrefixedBytesEncoder<'_> {
    fn len(&self) -> usize {
        self.inner.len()
    }
}

/// A count and so many values, one behind the other.
pub struct PrefixedSliceEncoder<'e, T: Encode + 'e> {
    count: Option<CompactSizeEncoder>,
    current: Option<T::Encoder<'e>>,
    rest: &'e [T],
}

impl<'e, T: Encode> PrefixedSliceEncoder<'e, T> {
    pub fn new(values: &'e [T]) -> Self {
        PrefixedSliceEncoder { count: Some(CompactSizeEncoder::new(values.len())), current: None, rest: values }
    }
}

impl<T: Encode> Encoder for PrefixedSliceEncoder<'_, T> {
    fn current_chunk(&self) -> &[u8] {
        match (&self.count, &self.current) {
            (Some(count), _) => count.current_chunk(),
            (None, Some(current)) => current.current_chunk(),
            (None, None) => &[],
        }
    }

    fn advance(&mut self) -> EncoderStatus {
        if self.count.take().is_none() {
            if let Some(current) = &mut self.current {
                if current.advance().has_more() {
                    return EncoderStatus::HasMore;
                }
            }
        }
        let Some((first, rest)) = self.rest.split_first() else {
            self.current = None;
            return EncoderStatus::Finished;
        };
        self.current = Some(first.encoder());
        self.rest = rest;
        EncoderStatus::HasMore
    }
}

/// What `encoder_newtype!` and `encoder_newtype_exact!` write: a struct of this name about another encoder. The text
/// calls its `new`; the lifetime is there whether or not the inner encoder borrows.
#[macro_export]
macro_rules! encoder_newtype {
    ($(#[$attribute:meta])* $visible:vis struct $name:ident<$life:lifetime>($inner:ty $(,)?);) => {
        $(#[$attribute])*
        $visible struct $name<$life>($inner, ::core::marker::PhantomData<&$life ()>);

        impl<$life> $name<$life> {
            fn new(inner: $inner) -> Self {
                Self(inner, ::core::marker::PhantomData)
            }
        }

        impl<$life> $crate::Encoder for $name<$life> {
            fn current_chunk(&self) -> &[u8] {
                $crate::Encoder::current_chunk(&self.0)
            }

            fn advance(&mut self) -> $crate::EncoderStatus {
                $crate::Encoder::advance(&mut self.0)
            }
        }
    };
}

/// The same, for an encoder that knows its length.
#[macro_export]
macro_rules! encoder_newtype_exact {
    ($(#[$attribute:meta])* $visible:vis struct $name:ident<$life:lifetime>($inner:ty $(,)?);) => {
        $crate::encoder_newtype! {
            $(#[$attribute])*
            $visible struct $name<$life>($inner);
        }

        impl<$life> $crate::ExactSizeEncoder for $name<$life> {
            fn len(&self) -> usize {
                $crate::ExactSizeEncoder::len(&self.0)
            }
        }
    };
}

/// All chunks, one behind the other.
pub fn encode_to_writer<T: Encode + ?Sized, W: io::Write>(value: &T, mut writer: W) -> io::Result<()> {
    let mut encoder = value.encoder();
    loop {
        writer.write_all(encoder.current_chunk())?;
        if encoder.advance().has_finished() {
            return Ok(());
        }
    }
}

pub fn encode_to_vec<T: Encode + ?Sized>(value: &T) -> Vec<u8> {
    let mut bytes = Vec::new();
    // Writing to a vector doesn't fail.
    let _ = encode_to_writer(value, &mut bytes);
    bytes
}
