//! Decoders. Each takes bytes from the front of a slice, says whether it wants more, and hands its output out at the
//! end.

use std::error::Error;
use std::fmt;
use std::io;

/// What a decoder says after each piece. The text asks `needs_more` of it and names both cases.
#[derive(Clone, Copy, PartialEq, Eq, Debug)]
pub enum DecoderStatus {
    Ready,
    NeedsMore,
}

impl DecoderStatus {
    pub fn needs_more(self) -> bool {
        self == DecoderStatus::NeedsMore
    }
}

/// As the text implements it (decoders.rs:46-59, pegin_witness.rs:124-184).
pub trait Decoder: Sized {
    type Output;
    type Error;

    /// Takes what it needs from the front of `bytes`.
    fn push_bytes(&mut self, bytes: &mut &[u8]) -> Result<DecoderStatus, Self::Error>;
    fn end(self) -> Result<Self::Output, Self::Error>;
    /// At most so many bytes can be taken next; not 0 while more is wanted, but for the text's own decoders of
    /// witnesses (decoders.rs:304).
    fn read_limit(&self) -> usize;
}

/// As the text implements it (decoders.rs:254) and calls it (`TxInWitness::decoder`, :285).
pub trait Decode: Sized {
    type Decoder: Decoder<Output = Self> + Default;

    fn decoder() -> Self::Decoder {
        Self::Decoder::default()
    }
}

/// The bytes end within a field.
#[derive(Clone, PartialEq, Eq, Debug)]
pub struct UnexpectedEofError {
    missing: usize,
}

impl fmt::Display for UnexpectedEofError {
    fn fmt(&self, f: &mut fmt::Formatter<'_>) -> fmt::Result {
        write!(f, "{} bytes missing", self.missing)
    }
}

impl Error for UnexpectedEofError {}

/// So many bytes as they stand.
#[derive(Clone, Debug)]
pub struct ArrayDecoder<const N: usize> {
    bytes: [u8; N],
    filled: usize,
}

impl<const N: usize> ArrayDecoder<N> {
    pub const fn new() -> Self {
        ArrayDecoder { bytes: [0; N], filled: 0 }
    }
}

impl<const N: usize> Default for ArrayDecoder<N> {
    fn default() -> Self {
        Self::new()
    }
}

impl<const N: usize> Decoder for ArrayDecoder<N> {
    type Output = [u8; N];
    type Error = UnexpectedEofError;

    fn push_bytes(&mut self, bytes: &mut &[u8]) -> Result<DecoderStatus, UnexpectedEofError> {
        let taken = bytes.len().min(N - self.filled);
        self.bytes[self.filled..self.filled + taken].copy_from_slice(&bytes[..taken]);
        self.filled += taken;
        *bytes = &bytes[taken..];
        Ok(if self.filled == N { DecoderStatus::Ready } else { DecoderStatus::NeedsMore })
    }

    fn end(self) -> Result<[u8; N], UnexpectedEofError> {
        match N - self.filled {
            0 => Ok(self.bytes),
            missing => Err(UnexpectedEofError { missing }),
        }
    }

    fn read_limit(&self) -> usize {
        N - self.filled
    }
}

/// The greatest count or length where the text names none. 4,000,000 is what the text gives its witness stacks and
/// their items (witness.rs:35, :42), and what it says that a vector may have at most (:799). The real crate's own isn't
/// in the text and may be another; but a transaction of at most 4,000,000 bytes can't have a greater one.
pub const MAX_LENGTH: usize = 4_000_000;

/// A count or length by Bitcoin's public CompactSize rule: a first byte below 253 is the number; 253, 254 and 255
/// announce 2, 4 and 8 bytes, low byte first; and, as in Bitcoin Core's `ReadCompactSize`, a number that has a shorter
/// form is refused ("non-canonical").
#[derive(Clone, Debug)]
pub struct CompactSizeDecoder {
    bytes: [u8; 9],
    filled: usize,
    limit: usize,
}

#[derive(Clone, PartialEq, Eq, Debug)]
pub enum CompactSizeDecoderError {
    UnexpectedEof,
    NonMinimal(u64),
    ExceedsLimit(u64),
}

impl fmt::Display for CompactSizeDecoderError {
    fn fmt(&self, f: &mut fmt::Formatter<'_>) -> fmt::Result {
        match self {
            Self::UnexpectedEof => f.write_str("the bytes end within a compact size"),
            Self::NonMinimal(number) => write!(f, "compact size {number} is not in its shortest form"),
            Self::ExceedsLimit(number) => write!(f, "compact size {number} exceeds its limit"),
        }
    }
}

impl Error for CompactSizeDecoderError {}

impl CompactSizeDecoder {
    pub const fn new() -> Self {
        Self::new_with_limit(MAX_LENGTH)
    }

    pub const fn new_with_limit(limit: usize) -> Self {
        CompactSizeDecoder { bytes: [0; 9], filled: 0, limit }
    }

    /// Bytes in all, as far as is known.
    fn width(&self) -> usize {
        match (self.filled, self.bytes[0]) {
            (0, _) => 1,
            (_, 253) => 3,
            (_, 254) => 5,
            (_, 255) => 9,
            _ => 1,
        }
    }

    fn number(&self) -> Result<u64, CompactSizeDecoderError> {
        let width = self.width();
        if self.filled < width {
            return Err(CompactSizeDecoderError::UnexpectedEof);
        }
        if width == 1 {
            return Ok(self.bytes[0].into());
        }
        let number = self.bytes[1..width].iter().rev().fold(0, |number, &byte| number << 8 | u64::from(byte));
        let least = match width {
            3 => 253,
            5 => 0x1_0000,
            _ => 0x1_0000_0000,
        };
        if number < least {
            return Err(CompactSizeDecoderError::NonMinimal(number));
        }
        Ok(number)
    }
}

impl Default for CompactSizeDecoder {
    fn default() -> Self {
        Self::new()
    }
}

impl Decoder for CompactSizeDecoder {
    type Output = usize;
    type Error = CompactSizeDecoderError;

    fn push_bytes(&mut self, bytes: &mut &[u8]) -> Result<DecoderStatus, CompactSizeDecoderError> {
        while self.filled < self.width() || self.filled == 0 {
            let Some((&first, rest)) = bytes.split_first() else {
                return Ok(DecoderStatus::NeedsMore);
            };
            self.bytes[self.filled] = first;
            self.filled += 1;
            *bytes = rest;
        }
        Ok(DecoderStatus::Ready)
    }

    fn end(self) -> Result<usize, CompactSizeDecoderError> {
        let number = self.number()?;
        match usize::try_from(number) {
            Ok(size) if size <= self.limit => Ok(size),
            _ => Err(CompactSizeDecoderError::ExceedsLimit(number)),
        }
    }

    fn read_limit(&self) -> usize {
        self.width() - self.filled
    }
}

/// A length and so many bytes.
#[derive(Clone, Default, Debug)]
pub struct ByteVecDecoder {
    length: CompactSizeDecoder,
    expected: Option<usize>,
    bytes: Vec<u8>,
}

#[derive(Clone, PartialEq, Eq, Debug)]
pub enum ByteVecDecoderError {
    Length(CompactSizeDecoderError),
    UnexpectedEof(UnexpectedEofError),
}

impl fmt::Display for ByteVecDecoderError {
    fn fmt(&self, f: &mut fmt::Formatter<'_>) -> fmt::Result {
        f.write_str("error decoding bytes with their length")
    }
}

impl Error for ByteVecDecoderError {
    fn source(&self) -> Option<&(dyn Error + 'static)> {
        match self {
            Self::Length(error) => Some(error),
            Self::UnexpectedEof(error) => Some(error),
        }
    }
}

impl ByteVecDecoder {
    pub const fn new() -> Self {
        ByteVecDecoder { length: CompactSizeDecoder::new(), expected: None, bytes: Vec::new() }
    }

    fn expected(&mut self, bytes: &mut &[u8]) -> Result<Option<usize>, ByteVecDecoderError> {
        if self.expected.is_none() {
            if self.length.push_bytes(bytes).map_err(ByteVecDecoderError::Length)?.needs_more() {
                return Ok(None);
            }
            self.expected = Some(self.length.clone().end().map_err(ByteVecDecoderError::Length)?);
        }
        Ok(self.expected)
    }
}

impl Decoder for ByteVecDecoder {
    type Output = Vec<u8>;
    type Error = ByteVecDecoderError;

    fn push_bytes(&mut self, bytes: &mut &[u8]) -> Result<DecoderStatus, ByteVecDecoderError> {
        let Some(expected) = self.expected(bytes)? else {
            return Ok(DecoderStatus::NeedsMore);
        };
        let taken = bytes.len().min(expected - self.bytes.len());
        self.bytes.extend_from_slice(&bytes[..taken]);
        *bytes = &bytes[taken..];
        Ok(if self.bytes.len() == expected { DecoderStatus::Ready } else { DecoderStatus::NeedsMore })
    }

    fn end(self) -> Result<Vec<u8>, ByteVecDecoderError> {
        let Some(expected) = self.expected else {
            return Err(ByteVecDecoderError::Length(CompactSizeDecoderError::UnexpectedEof));
        };
        match expected - self.bytes.len() {
            0 => Ok(self.bytes),
            missing => Err(ByteVecDecoderError::UnexpectedEof(UnexpectedEofError { missing })),
        }
    }

    fn read_limit(&self) -> usize {
        match self.expected {
            None => self.length.read_limit(),
            Some(expected) => expected - self.bytes.len(),
        }
    }
}

/// A count and so many values, one behind the other.
pub struct VecDecoder<T: Decode> {
    count: CompactSizeDecoder,
    expected: Option<usize>,
    values: Vec<T>,
    current: Option<T::Decoder>,
}

#[derive(Clone, PartialEq, Eq, Debug)]
pub enum VecDecoderError<E> {
    Count(CompactSizeDecoderError),
    Value(E),
    UnexpectedEof(UnexpectedEofError),
}

impl<E> fmt::Display for VecDecoderError<E> {
    fn fmt(&self, f: &mut fmt::Formatter<'_>) -> fmt::Result {
        f.write_str("error decoding a counted list")
    }
}

impl<E: Error + 'static> Error for VecDecoderError<E> {
    fn source(&self) -> Option<&(dyn Error + 'static)> {
        match self {
            Self::Count(error) => Some(error),
            Self::Value(error) => Some(error),
            Self::UnexpectedEof(error) => Some(error),
        }
    }
}

impl<T: Decode> Default for VecDecoder<T> {
    fn default() -> Self {
        VecDecoder { count: CompactSizeDecoder::new(), expected: None, values: Vec::new(), current: None }
    }
}

impl<T: Decode> Decoder for VecDecoder<T> {
    type Output = Vec<T>;
    type Error = VecDecoderError<<T::Decoder as Decoder>::Error>;

    fn push_bytes(&mut self, bytes: &mut &[u8]) -> Result<DecoderStatus, Self::Error> {
        let expected = match self.expected {
            Some(expected) => expected,
            None => {
                if self.count.push_bytes(bytes).map_err(VecDecoderError::Count)?.needs_more() {
                    return Ok(DecoderStatus::NeedsMore);
                }
                *self.expected.insert(self.count.clone().end().map_err(VecDecoderError::Count)?)
            }
        };
        while self.values.len() < expected {
            let current = self.current.get_or_insert_with(T::decoder);
            if current.push_bytes(bytes).map_err(VecDecoderError::Value)?.needs_more() {
                return Ok(DecoderStatus::NeedsMore);
            }
            if let Some(whole) = self.current.take() {
                self.values.push(whole.end().map_err(VecDecoderError::Value)?);
            }
        }
        Ok(DecoderStatus::Ready)
    }

    fn end(self) -> Result<Vec<T>, Self::Error> {
        let Some(expected) = self.expected else {
            return Err(VecDecoderError::Count(CompactSizeDecoderError::UnexpectedEof));
        };
        match expected - self.values.len() {
            0 => Ok(self.values),
            missing => Err(match self.current.map(Decoder::end) {
                Some(Err(error)) => VecDecoderError::Value(error),
                _ => VecDecoderError::UnexpectedEof(UnexpectedEofError { missing }),
            }),
        }
    }

    fn read_limit(&self) -> usize {
        match (self.expected, &self.current) {
            (None, _) => self.count.read_limit(),
            (Some(_), Some(current)) => current.read_limit(),
            (Some(expected), None) if self.values.len() < expected => 1,
            _ => 0,
        }
    }
}

/// One of the decoders in a row: still at work, or done.
enum Slot<D: Decoder> {
    At(D),
    Done(D::Output),
    Spent,
}

impl<D: Decoder> Slot<D> {
    fn push(&mut self, bytes: &mut &[u8]) -> Result<DecoderStatus, D::Error> {
        let Slot::At(decoder) = self else {
            return Ok(DecoderStatus::Ready);
        };
        if decoder.push_bytes(bytes)?.needs_more() {
            return Ok(DecoderStatus::NeedsMore);
        }
        if let Slot::At(whole) = std::mem::replace(self, Slot::Spent) {
            *self = Slot::Done(whole.end()?);
        }
        Ok(DecoderStatus::Ready)
    }

    fn end(self) -> Result<D::Output, D::Error> {
        match self {
            Slot::At(decoder) => decoder.end(),
            Slot::Done(output) => Ok(output),
            Slot::Spent => panic!("a failed decoder was used again"),
        }
    }

    /// None where it is done.
    fn read_limit(&self) -> Option<usize> {
        match self {
            Slot::At(decoder) => Some(decoder.read_limit()),
            _ => None,
        }
    }
}

/// Decoders in a row: the next begins where the last one is done, and the first error ends all.
macro_rules! decoder_of {
    ($name:ident, $error:ident: $($letter:ident $field:ident $variant:ident),*) => {
        pub struct $name<$($letter: Decoder),*> {
            $($field: Slot<$letter>),*
        }

        impl<$($letter: Decoder),*> $name<$($letter),*> {
            pub fn new($($field: $letter),*) -> Self {
                $name { $($field: Slot::At($field)),* }
            }
        }

        impl<$($letter: Decoder + Default),*> Default for $name<$($letter),*> {
            fn default() -> Self {
                $name { $($field: Slot::At($letter::default())),* }
            }
        }

        #[derive(Clone, PartialEq, Eq, Debug)]
        pub enum $error<$($letter),*> {
            $($variant($letter)),*
        }

        impl<$($letter),*> fmt::Display for $error<$($letter),*> {
            fn fmt(&self, f: &mut fmt::Formatter<'_>) -> fmt::Result {
                match self {
                    $(Self::$variant(_) => f.write_str(stringify!($variant)),)*
                }
            }
        }

        impl<$($letter: Error + 'static),*> Error for $error<$($letter),*> {
            fn source(&self) -> Option<&(dyn Error + 'static)> {
                match self {
                    $(Self::$variant(error) => Some(error),)*
                }
            }
        }

        impl<$($letter: Decoder),*> Decoder for $name<$($letter),*> {
            type Output = ($($letter::Output),*);
            type Error = $error<$($letter::Error),*>;

            fn push_bytes(&mut self, bytes: &mut &[u8]) -> Result<DecoderStatus, Self::Error> {
                $(if self.$field.push(bytes).map_err($error::$variant)?.needs_more() {
                    return Ok(DecoderStatus::NeedsMore);
                })*
                Ok(DecoderStatus::Ready)
            }

            fn end(self) -> Result<Self::Output, Self::Error> {
                Ok(($(self.$field.end().map_err($error::$variant)?),*))
            }

            fn read_limit(&self) -> usize {
                $(if let Some(limit) = self.$field.read_limit() {
                    return limit;
                })*
                0
            }
        }
    };
}

decoder_of!(Decoder2, Decoder2Error: A a First, B b Second);
decoder_of!(Decoder3, Decoder3Error: A a First, B b Second, C c Third);
decoder_of!(Decoder4, Decoder4Error: A a First, B b Second, C c Third, D d Fourth);
decoder_of!(Decoder6, Decoder6Error: A a First, B b Second, C c Third, D d Fourth, E e Fifth, F f Sixth);

/// What reading through `io::Read` can end with (encode.rs:295, pegin_witness.rs:546).
#[derive(Debug)]
pub enum ReadError<E> {
    Io(io::Error),
    Decode(E),
}

/// Reads no byte behind the value: one at a time. The real one may ask for `read_limit` bytes at once; which bytes it
/// takes must be the same.
pub fn decode_from_read_unbuffered<T: Decode, R: io::Read>(
    mut reader: R,
) -> Result<T, ReadError<<T::Decoder as Decoder>::Error>> {
    let mut decoder = T::decoder();
    let mut byte = [0];
    while decoder.push_bytes(&mut &byte[..0]).map_err(ReadError::Decode)?.needs_more() {
        match reader.read(&mut byte).map_err(ReadError::Io)? {
            0 => break,
            _ => decoder.push_bytes(&mut &byte[..]).map_err(ReadError::Decode)?,
        };
    }
    decoder.end().map_err(ReadError::Decode)
}
