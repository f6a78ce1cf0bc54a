//! Stands for `src/taproot.rs`: two hashes that `encode.rs` and `script.rs` name. No reading or writing of a
//! transaction uses them.

use crate::hashes::{hash_newtype, sha256};

hash_newtype! {
    pub struct TapLeafHash(pub sha256::Hash);
    pub struct TapNodeHash(pub sha256::Hash);
}
