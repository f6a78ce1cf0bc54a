//! Stands for `src/address.rs`: names that `lib.rs` re-exports. No reading or writing of a transaction uses them.

pub struct Address;
pub struct AddressError;
pub struct AddressParams;
