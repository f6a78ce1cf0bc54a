//! Stands for `src/sighash.rs`: a name that `lib.rs` re-exports. No reading or writing of a transaction uses it.

pub struct SchnorrSighashType;
