//! Stands for the crate `bitcoin`: a block's hash and a script as holders of bytes, with the decoders and encoders that
//! a pegin stack is put together from; a counting rule; a limit. The rest is names that the text mentions and no
//! transaction's reading or writing reaches.
//!
//! It can't show what the real crate limits or refuses in a block hash or a claim script (here: nothing but the width,
//! and a script's length up to `encoding::MAX_LENGTH`), nor anything computed by hashing.

macro_rules! refusal {
    ($name:ident) => {
        #[derive(Clone, PartialEq, Eq, Debug)]
        pub struct $name;

        impl fmt::Display for $name {
            fn fmt(&self, f: &mut fmt::Formatter<'_>) -> fmt::Result {
                f.write_str("not read here")
            }
        }

        impl std::error::Error for $name {}
    };
}

pub mod secp256k1 {
    pub use secp256k1_zkp::UpstreamError as Error;
}

pub mod hashes {
    use std::fmt;

    /// The older form of the hash trait.
    pub trait Hash: Sized {
        fn hash(bytes: &[u8]) -> Self;
        fn from_slice(bytes: &[u8]) -> Result<Self, FromSliceError>;
        fn from_byte_array(bytes: [u8; 32]) -> Self;
        fn to_byte_array(self) -> [u8; 32];
    }

    refusal!(FromSliceError);
}

macro_rules! hash_of_32 {
    ($name:ident) => {
        #[derive(Copy, Clone, PartialEq, Eq, PartialOrd, Ord, Hash, Debug)]
        pub struct $name([u8; 32]);

        impl hashes::Hash for $name {
            fn hash(bytes: &[u8]) -> Self {
                $name(::hashes::spread(::hashes::fold(0, bytes)))
            }

            fn from_slice(bytes: &[u8]) -> Result<Self, hashes::FromSliceError> {
                bytes.try_into().map($name).map_err(|_| hashes::FromSliceError)
            }

            fn from_byte_array(bytes: [u8; 32]) -> Self {
                $name(bytes)
            }

            fn to_byte_array(self) -> [u8; 32] {
                self.0
            }
        }
    };
}

hash_of_32!(BlockHash);
hash_of_32!(Txid);

impl BlockHash {
    pub fn from_raw_hash(hash: BlockHash) -> BlockHash {
        hash
    }
}

pub mod block {
    //! A block hash is 32 bytes as they stand.

    use super::BlockHash;
    use encoding::{ArrayDecoder, ArrayRefEncoder, Decoder, DecoderStatus, UnexpectedEofError};

    encoding::encoder_newtype_exact! {
        #[derive(Clone, Debug)]
        pub struct BlockHashEncoder<'e>(ArrayRefEncoder<'e, 32>);
    }

    impl encoding::Encode for BlockHash {
        type Encoder<'e> = BlockHashEncoder<'e>;

        fn encoder(&self) -> BlockHashEncoder<'_> {
            BlockHashEncoder::new(ArrayRefEncoder::without_length_prefix(&self.0))
        }
    }

    pub type BlockHashDecoderError = UnexpectedEofError;

    pub struct BlockHashDecoder(ArrayDecoder<32>);

    impl BlockHashDecoder {
        pub fn new() -> Self {
            BlockHashDecoder(ArrayDecoder::new())
        }
    }

    impl Decoder for BlockHashDecoder {
        type Output = BlockHash;
        type Error = BlockHashDecoderError;

        fn push_bytes(&mut self, bytes: &mut &[u8]) -> Result<DecoderStatus, UnexpectedEofError> {
            self.0.push_bytes(bytes)
        }

        fn end(self) -> Result<BlockHash, UnexpectedEofError> {
            self.0.end().map(BlockHash)
        }

        fn read_limit(&self) -> usize {
            self.0.read_limit()
        }
    }
}

#[derive(Clone, Default, PartialEq, Eq, PartialOrd, Ord, Hash, Debug)]
pub struct ScriptBuf(Vec<u8>);

impl ScriptBuf {
    pub fn from_bytes(bytes: Vec<u8>) -> Self {
        ScriptBuf(bytes)
    }

    pub fn as_script(&self) -> &ScriptBuf {
        self
    }

    pub fn as_bytes(&self) -> &[u8] {
        &self.0
    }

    pub fn is_empty(&self) -> bool {
        self.0.is_empty()
    }
}

impl From<Vec<u8>> for ScriptBuf {
    fn from(bytes: Vec<u8>) -> Self {
        ScriptBuf(bytes)
    }
}

pub mod blockdata {
    pub mod script {
        //! A script is its length and its bytes.

        use crate::ScriptBuf;
        use encoding::{ByteVecDecoder, ByteVecDecoderError, Decoder, DecoderStatus, PrefixedBytesEncoder};

        encoding::encoder_newtype_exact! {
            #[derive(Clone, Debug)]
            pub struct ScriptEncoder<'e>(PrefixedBytesEncoder<'e>);
        }

        impl encoding::Encode for ScriptBuf {
            type Encoder<'e> = ScriptEncoder<'e>;

            fn encoder(&self) -> ScriptEncoder<'_> {
                ScriptEncoder::new(PrefixedBytesEncoder::new(&self.0))
            }
        }

        pub type ScriptBufDecoderError = ByteVecDecoderError;

        pub struct ScriptBufDecoder(ByteVecDecoder);

        impl ScriptBufDecoder {
            pub fn new() -> Self {
                ScriptBufDecoder(ByteVecDecoder::new())
            }
        }

        impl Decoder for ScriptBufDecoder {
            type Output = ScriptBuf;
            type Error = ScriptBufDecoderError;

            fn push_bytes(&mut self, bytes: &mut &[u8]) -> Result<DecoderStatus, ByteVecDecoderError> {
                self.0.push_bytes(bytes)
            }

            fn end(self) -> Result<ScriptBuf, ByteVecDecoderError> {
                self.0.end().map(ScriptBuf)
            }

            fn read_limit(&self) -> usize {
                self.0.read_limit()
            }
        }
    }

    pub mod transaction {
        use std::fmt;

        refusal!(ParseOutPointError);
    }

    pub mod constants {
        pub struct ChainHash([u8; 32]);

        impl ChainHash {
            pub(crate) const ZERO: ChainHash = ChainHash([0; 32]);
        }

        impl AsRef<[u8; 32]> for ChainHash {
            fn as_ref(&self) -> &[u8; 32] {
                &self.0
            }
        }
    }
}

pub enum Network {
    Regtest,
}

impl Network {
    pub fn chain_hash(self) -> blockdata::constants::ChainHash {
        blockdata::constants::ChainHash::ZERO
    }
}

pub struct OutPoint {
    pub txid: Txid,
    pub vout: u32,
}

impl std::str::FromStr for OutPoint {
    type Err = blockdata::transaction::ParseOutPointError;

    fn from_str(_: &str) -> Result<Self, Self::Err> {
        Err(blockdata::transaction::ParseOutPointError)
    }
}

pub struct PublicKey {
    pub compressed: bool,
    pub inner: secp256k1_zkp::PublicKey,
}

/// How many bytes a count takes, by the public rule; `Transaction::size` asks it.
pub struct VarInt(pub u64);

impl VarInt {
    pub fn size(&self) -> usize {
        encoding::CompactSizeEncoder::encoded_size(self.0 as usize)
    }
}

pub struct Transaction;
pub struct MerkleBlock;

pub mod consensus {
    pub mod encode {
        use std::fmt;

        /// The older reader's greatest vector in bytes. Its value isn't in the text; a private copy (witness.rs:799)
        /// has this one.
        pub const MAX_VEC_SIZE: usize = 4_000_000;

        refusal!(Error);

        pub fn deserialize<T>(_: &[u8]) -> Result<T, Error> {
            Err(Error)
        }
    }
}
