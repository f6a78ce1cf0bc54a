//! Stands for `src/fast_merkle_root.rs`: one function, for asset ids that are made of an entropy. What it computes is
//! no hash.

pub fn fast_merkle_root(leaves: &[[u8; 32]]) -> [u8; 32] {
    crate::hashes::spread(leaves.iter().fold(0, |state, leaf| crate::hashes::fold(state, leaf)))
}
