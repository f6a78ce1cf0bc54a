//! Stands for `src/genesis.rs`: what `issuance.rs` asks for a network's own asset. No reading or writing of a
//! transaction uses it.

pub struct NetworkParams {
    pub network_id: String,
}

pub fn commit_to_custom_network_parameters(params: &NetworkParams) -> crate::hashes::sha256::Hash {
    crate::hashes::sha256::Hash::hash(params.network_id.as_bytes())
}
