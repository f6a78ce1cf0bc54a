//! Stands for `src/block.rs`: names that `lib.rs` re-exports. No reading or writing of a transaction uses them.

pub struct Block;
pub struct BlockHeader;
pub struct DynafedRoot;
pub struct ExtData;
