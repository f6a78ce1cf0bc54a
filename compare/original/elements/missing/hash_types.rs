//! Stands for `src/hash_types.rs`: the hashes' names. A txid is 32 bytes as they stand, in reading and in writing.

use crate::encode::{Decodable, Encodable, Error};
use crate::hashes::{hash160, hash_newtype, sha256, sha256d};
use std::io;

hash_newtype! {
    pub struct Txid(pub sha256d::Hash);
    pub struct Wtxid(pub sha256d::Hash);
    pub struct PubkeyHash(pub hash160::Hash);
    pub struct ScriptHash(pub hash160::Hash);
    pub struct WPubkeyHash(pub hash160::Hash);
    pub struct WScriptHash(pub sha256::Hash);
}

impl Txid {
    /// 32 zero bytes, as the public Bitcoin coinbase has them.
    pub const COINBASE_PREVOUT: Txid = Txid::from_byte_array([0; 32]);
}

impl Encodable for Txid {
    fn consensus_encode<W: io::Write>(&self, writer: W) -> Result<usize, Error> {
        self.to_byte_array().consensus_encode(writer)
    }
}

impl Decodable for Txid {
    fn consensus_decode<R: io::Read>(reader: R) -> Result<Self, Error> {
        <[u8; 32]>::consensus_decode(reader).map(Txid::from_byte_array)
    }
}
