//! Stands for the crate bech32: two of its 32 letters, by which `script.rs` names witness versions 0 and 1. No reading
//! or writing of a transaction uses it.

#[derive(Clone, Copy, PartialEq, Eq, Debug)]
pub struct Fe32(u8);

impl Fe32 {
    pub const Q: Fe32 = Fe32(0);
    pub const P: Fe32 = Fe32(1);

    pub fn to_u8(self) -> u8 {
        self.0
    }
}
