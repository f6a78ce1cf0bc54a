//! Stands for the crate `encoding`, that is bitcoin-consensus-encoding: the traits that the original's decoders and
//! encoders implement, and the ready-made ones that they are put together from.
//!
//! Written from the ways in which the original's text uses them, and from Bitcoin's public CompactSize rule. It can't
//! show what the real crate does where the text doesn't say: after how many bytes an error comes, which error wins
//! where two are at hand, what a decoder does once it is done, how much is allocated at once, and whether `VecDecoder`,
//! `ByteVecDecoder` and `CompactSizeDecoder::new` have the greatest length that is given here.

mod decode;
mod encode;

pub use decode::*;
pub use encode::*;
