//! Reads and writes Elements transactions with the proved library of Takzulit.
//!
//! The library (`libtakzulit.a`, which `bin/library` writes) is a port of the transaction decoders and encoders of the crate `elements`
//! 0.27.0, and each of its functions is proved to keep its promise. This crate declares them and puts types over them. Nothing is allocated (but by
//! [`OwnedDecoder`], for its tables): numbers and positions go into three tables of `u32`, and bodies stay where the bytes are.
//!
//! # Reading
//!
//! [`Transaction::read_strict`] reads bytes that are all there, and are all the transaction. Where they come in pieces, [`TransactionDecoder`]
//! follows the interface of the crate `elements`: [`push_bytes`](TransactionDecoder::push_bytes) takes bytes off the front of a slice,
//! [`end`](TransactionDecoder::end) gives the [`Transaction`]. [`OwnedDecoder`] does the same with tables of its own. `docs/DIFFERENCES.md`, section
//! 5, says where they depart from the original.
//!
//! ```
//! use takzulit::{RefusalKind, Transaction, TransactionDecoder, Value, INPUT_WIDTH, ITEM_WIDTH, OUTPUT_WIDTH};
//!
//! // one input, one output of 400, no witness: 96 bytes
//! let mut bytes = vec![2, 0, 0, 0, 0, 1]; // version, witness flag, one input
//! bytes.extend([0x74; 32]); // txid
//! bytes.extend([0, 0, 0, 0, 0, 0xfe, 0xff, 0xff, 0xff, 1]); // vout, empty script, sequence, one output
//! bytes.push(1); // asset
//! bytes.extend([0x61; 32]);
//! bytes.extend([1, 0, 0, 0, 0, 0, 0, 1, 0x90, 0, 0]); // explicit 400, null nonce, empty script
//! bytes.extend([0, 0, 0, 0]); // locktime
//!
//! // the same tables all night
//! let (mut inputs, mut outputs, mut items) = ([0; 64 * INPUT_WIDTH], [0; 64 * OUTPUT_WIDTH], [0; 256 * ITEM_WIDTH]);
//!
//! // at once
//! let transaction = Transaction::read_strict(&bytes, &mut inputs, &mut outputs, &mut items)?;
//! let output = transaction.outputs().next().unwrap();
//! assert_eq!(output.value, Value::Explicit(400));
//! assert_eq!(output.asset.body().get(&bytes), Some(&[0x61; 32][..]));
//! assert!(output.is_fee());
//!
//! // and back: the same bytes
//! let mut written = [0; 96];
//! assert_eq!(transaction.write(&bytes, &mut written)?, 96);
//! assert_eq!(written[..], bytes[..]);
//!
//! // in pieces, and strictly: what a finished transaction leaves in a piece is too much
//! let mut decoder = TransactionDecoder::new(&mut inputs, &mut outputs, &mut items);
//! for mut piece in bytes.chunks(50) {
//!     decoder.push_bytes(&mut piece)?;
//!     assert!(piece.is_empty(), "bytes follow");
//! }
//! assert_eq!(decoder.end()?.head().bytes, 96);
//!
//! // a refusal has a name, a number and a place
//! let refusal = Transaction::read_strict(&bytes[..95], &mut inputs, &mut outputs, &mut items).unwrap_err();
//! assert_eq!(refusal.kind(), RefusalKind::EndsEarly);
//! assert_eq!(refusal.to_string(), "refusal 1 at 95: the bytes end inside the transaction");
//! # Ok::<(), takzulit::Refusal>(())
//! ```
//!
//! # What is promised
//!
//! By the proofs, of the exported functions, for whatever bytes and tables: the reader ends with a finished transaction, a wish for more, or a numbered
//! refusal with its place. A refused reading leaves every number of its tables 0, and a finished one leaves 0 behind its last record. A
//! transaction is accepted exactly if layout, limit ([`LIMIT`]) and room allow it, and the tables say what the layout says. What is read writes back as
//! the same bytes, and what is written reads back. A refused write leaves the output as it was. Neither the way the bytes are cut nor
//! hashes, commitments, scripts and proofs move what the reader says.
//!
//! By the types of this crate, in safe Rust: a reading keeps its tables from its fresh start to its end, so it can't be finished with another's
//! records; a [`Transaction`] comes from a finished reading alone, which gives it once, and nobody writes its tables while it lives; what is lent doesn't overlap. No function
//! panics, whatever it is given. All that is unsafe stands in one file, `src/raw.rs`, and the one function that is unsafe to call is
//! [`TransactionDecoder::resume_unchecked`].
//!
//! # What is not
//!
//! This crate itself is read and run, not proved: that its declarations are those of the exported functions is checked by a script, `.ci/exports`, and its
//! tests hold it against document 01's values. Curve points, proofs, signatures and hashes are not checked: an accepted transaction has the right
//! form, and no more. The archive is linked as it is: that it was written from the sources beside this crate is the builder's to see to, by
//! `bin/library` behind every change of them. A [`Transaction`] does not hold its bytes: whether the source given to
//! [`write`](Transaction::write), or the slice given to [`Body::get`], is the one that was read, is the caller's to know.

#![deny(missing_docs, unsafe_code)]

pub mod columns;
mod decoder;
mod raw;
mod records;
mod refusal;
mod transaction;

pub use decoder::{DecoderStatus, OwnedDecoder, TransactionDecoder};
pub use raw::{INPUT_WIDTH, ITEM_WIDTH, LIMIT, OUTPUT_WIDTH, STATE};
pub use records::{Amount, Body, Input, Item, Output, Prefixed, Value};
pub use refusal::{Refusal, RefusalKind};
pub use transaction::{Draft, Head, Transaction};

/// The fee question of an output record: an output is a fee exactly if its script has length 0.
pub fn is_fee(output: &[u32; OUTPUT_WIDTH]) -> bool {
    raw::is_fee(output)
}

// The README's code is compiled and run as this text's examples are.
#[cfg(doctest)]
#[doc = include_str!("../../../README.md")]
struct Readme;

// What the types must refuse is compiled, and refused, there.
#[cfg(doctest)]
#[doc = include_str!("../tests/refused_by_types.md")]
struct RefusedByTypes;
