//! Stands for `src/confidential/range_proof.rs`: a proof as a holder of its bytes, with their length before them, as
//! `PrefixedByteVecEncoder` (confidential/mod.rs:97) writes it. It accepts any bytes of any length up to
//! `encoding::MAX_LENGTH`, and is empty exactly if it has none.
//!
//! It can't show which contents the real one refuses, nor whether it gives back the same bytes.

use super::PrefixedByteVecEncoder;
use crate::encode::{self, Decodable, Encodable};
use std::io;

#[derive(Clone, PartialEq, Eq, PartialOrd, Ord, Hash, Debug, Default)]
pub struct RangeProof(Vec<u8>);

impl RangeProof {
    pub const EMPTY: Self = RangeProof(Vec::new());

    pub fn is_empty(&self) -> bool {
        self.0.is_empty()
    }

    pub fn len(&self) -> usize {
        self.0.len()
    }

    /// For the comparison; the real one's contents come by `serialize`.
    pub fn as_bytes(&self) -> &[u8] {
        &self.0
    }

    /// For the comparison: one with these bytes.
    pub fn from_bytes(bytes: &[u8]) -> Self {
        RangeProof(bytes.to_vec())
    }

    /// The name is the text's (mod.rs:766).
    pub fn minimim_value(&self) -> Option<u64> {
        None
    }
}

impl Encodable for RangeProof {
    fn consensus_encode<W: io::Write>(&self, writer: W) -> Result<usize, encode::Error> {
        self.0.consensus_encode(writer)
    }
}

impl Decodable for RangeProof {
    fn consensus_decode<R: io::Read>(reader: R) -> Result<Self, encode::Error> {
        Vec::<u8>::consensus_decode(reader).map(RangeProof)
    }
}

crate::encoding::encoder_newtype_exact! {
    #[derive(Clone, Debug)]
    pub struct Encoder<'e>(PrefixedByteVecEncoder);
}

impl crate::encoding::Encode for RangeProof {
    type Encoder<'e> = Encoder<'e>;

    fn encoder(&self) -> Encoder<'_> {
        Encoder::new(PrefixedByteVecEncoder::new(self.0.clone()))
    }
}

decoder_newtype! {
    #[derive(Default)]
    pub struct Decoder(crate::encoding::ByteVecDecoder);

    #[derive(Clone, PartialEq, Eq, Debug)]
    pub struct DecoderError(crate::encoding::ByteVecDecoderError);
    const ERROR_DISPLAY = "error decoding a proof";

    impl Decode for RangeProof {
        fn convert_inner(bytes) -> Result<_, _> {
            Ok(RangeProof(bytes))
        }
    }
}
