//! The records of the tables, with names.

#![forbid(unsafe_code)]

use crate::columns::{input, item, output};
use crate::{INPUT_WIDTH, ITEM_WIDTH, OUTPUT_WIDTH};
use std::ops::Range;

/// The bytes of a txid, an asset, a nonce or a commitment.
const PART: u32 = 32;

/// Where bytes stand that are not in the tables, counted from the transaction's start.
#[derive(Clone, Copy, Debug, PartialEq, Eq, Hash)]
pub struct Body {
    /// Of its first byte.
    pub position: u32,
    /// In bytes; it can be 0.
    pub length: u32,
}

impl Body {
    fn of(position: u32, length: u32) -> Body {
        Body { position, length }
    }

    /// The body, out of the transaction's bytes. Of the bytes that were read it is always there; of others it may be none.
    pub fn get<'b>(&self, bytes: &'b [u8]) -> Option<&'b [u8]> {
        bytes.get(self.range())
    }

    /// As a range of the transaction's bytes.
    pub fn range(&self) -> Range<usize> {
        self.position as usize..self.position as usize + self.length as usize
    }
}

/// An amount of an issuance: no position of its own. The first stands 64 bytes behind the issuance's position, the second behind it; each has its
/// prefix, and then 0, 8 or 32 bytes.
#[derive(Clone, Copy, Debug, PartialEq, Eq, Hash)]
pub enum Amount {
    /// Prefix 0.
    Null,
    /// Prefix 1, and the amount.
    Explicit(u64),
    /// A commitment; its prefix, 8 or 9.
    Confidential(u32),
}

/// An output's value.
#[derive(Clone, Copy, Debug, PartialEq, Eq, Hash)]
pub enum Value {
    /// Prefix 0.
    Null,
    /// Prefix 1, and the value.
    Explicit(u64),
    /// A commitment; its 32 bytes stand behind the prefix.
    Confidential {
        /// 8 or 9.
        prefix: u32,
        /// Where the prefix stands.
        position: u32,
    },
}

/// An asset or a nonce: a prefix, its position, and 32 bytes behind it unless it is null.
#[derive(Clone, Copy, Debug, PartialEq, Eq, Hash)]
pub struct Prefixed {
    /// 0 null, 1 explicit; of a commitment 10 or 11 (an asset), 2 or 3 (a nonce).
    pub prefix: u32,
    /// Where the prefix stands.
    pub position: u32,
}

impl Prefixed {
    /// Whether the prefix is 0.
    pub fn is_null(&self) -> bool {
        self.prefix == 0
    }

    /// The 32 bytes behind the prefix; none if it is null.
    pub fn body(&self) -> Body {
        Body::of(self.position.saturating_add(1), if self.is_null() { 0 } else { PART })
    }
}

/// An input. Without the witness flag its proofs and stacks are 0.
#[derive(Clone, Copy, Debug, PartialEq, Eq, Hash)]
pub struct Input {
    /// The txid's 32 bytes, in the order in which they stand.
    pub txid: Body,
    /// The output's number, without the flags.
    pub vout: u32,
    /// The pegin flag.
    pub is_pegin: bool,
    /// The issuance flag.
    pub has_issuance: bool,
    /// The script.
    pub script: Body,
    /// The sequence.
    pub sequence: u32,
    /// The position of the issuance: blinding nonce (32), entropy (32), amount, keys. 0 without one.
    pub issuance: u32,
    /// The issuance's amount; null without one.
    pub amount: Amount,
    /// The issuance's inflation keys; null without one.
    pub keys: Amount,
    /// The amount's proof.
    pub amount_proof: Body,
    /// The keys' proof.
    pub keys_proof: Body,
    first_item: u32,
    script_count: u32,
    pegin_count: u32,
}

fn wide(high: u32, low: u32) -> u64 {
    u64::from(high) << 32 | u64::from(low)
}

fn amount(prefix: u32, high: u32, low: u32) -> Amount {
    match prefix {
        0 => Amount::Null,
        1 => Amount::Explicit(wide(high, low)),
        _ => Amount::Confidential(prefix),
    }
}

impl Input {
    pub(crate) fn of(r: &[u32; INPUT_WIDTH]) -> Input {
        Input {
            txid: Body::of(r[input::TXID_POSITION], PART),
            vout: r[input::VOUT],
            is_pegin: r[input::FLAGS] & 1 != 0,
            has_issuance: r[input::FLAGS] & 2 != 0,
            script: Body::of(r[input::SCRIPT_POSITION], r[input::SCRIPT_LENGTH]),
            sequence: r[input::SEQUENCE],
            issuance: r[input::ISSUANCE_POSITION],
            amount: amount(r[input::AMOUNT_PREFIX], r[input::AMOUNT_HIGH], r[input::AMOUNT_LOW]),
            keys: amount(r[input::KEYS_PREFIX], r[input::KEYS_HIGH], r[input::KEYS_LOW]),
            amount_proof: Body::of(r[input::AMOUNT_PROOF_POSITION], r[input::AMOUNT_PROOF_LENGTH]),
            keys_proof: Body::of(r[input::KEYS_PROOF_POSITION], r[input::KEYS_PROOF_LENGTH]),
            first_item: r[input::FIRST_ITEM],
            script_count: r[input::SCRIPT_ITEMS],
            pegin_count: r[input::PEGIN_ITEMS],
        }
    }

    /// The numbers of its script stack's items, from 0.
    pub fn script_items(&self) -> Range<usize> {
        let first = self.first_item as usize;
        first..first + self.script_count as usize
    }

    /// The numbers of its pegin stack's items.
    pub fn pegin_items(&self) -> Range<usize> {
        let first = self.script_items().end;
        first..first + self.pegin_count as usize
    }
}

/// An output. Without the witness flag its proofs are 0.
#[derive(Clone, Copy, Debug, PartialEq, Eq, Hash)]
pub struct Output {
    /// The asset.
    pub asset: Prefixed,
    /// The value.
    pub value: Value,
    /// The nonce.
    pub nonce: Prefixed,
    /// The script.
    pub script: Body,
    /// The surjection proof.
    pub surjection_proof: Body,
    /// The range proof.
    pub range_proof: Body,
    record: [u32; OUTPUT_WIDTH],
}

impl Output {
    pub(crate) fn of(r: &[u32; OUTPUT_WIDTH]) -> Output {
        let value = match r[output::VALUE_PREFIX] {
            0 => Value::Null,
            1 => Value::Explicit(wide(r[output::VALUE_HIGH], r[output::VALUE_LOW])),
            prefix => Value::Confidential { prefix, position: r[output::VALUE_POSITION] },
        };
        Output {
            asset: Prefixed { prefix: r[output::ASSET_PREFIX], position: r[output::ASSET_POSITION] },
            value,
            nonce: Prefixed { prefix: r[output::NONCE_PREFIX], position: r[output::NONCE_POSITION] },
            script: Body::of(r[output::SCRIPT_POSITION], r[output::SCRIPT_LENGTH]),
            surjection_proof: Body::of(r[output::SURJECTION_PROOF_POSITION], r[output::SURJECTION_PROOF_LENGTH]),
            range_proof: Body::of(r[output::RANGE_PROOF_POSITION], r[output::RANGE_PROOF_LENGTH]),
            record: *r,
        }
    }

    /// The fee question, asked of the record: [`is_fee`](crate::is_fee).
    pub fn is_fee(&self) -> bool {
        crate::is_fee(&self.record)
    }
}

/// An item of a stack.
#[derive(Clone, Copy, Debug, PartialEq, Eq, Hash)]
pub struct Item {
    /// Where it stands.
    pub body: Body,
}

impl Item {
    pub(crate) fn of(r: &[u32; ITEM_WIDTH]) -> Item {
        Item { body: Body::of(r[item::POSITION], r[item::LENGTH]) }
    }
}
