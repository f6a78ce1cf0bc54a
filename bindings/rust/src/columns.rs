//! Names for the numbers of the head and of each table's records: document 01's section "The tables", column by column.
//!
//! A position counts from the transaction's first byte, and a field that is not there has 0. The names are those of `include/takzulit.h`, and
//! `.ci/exports` holds them against each other.
//!
//! ```
//! use takzulit::{columns::output, Transaction, INPUT_WIDTH, ITEM_WIDTH, OUTPUT_WIDTH};
//!
//! # let mut bytes = vec![2, 0, 0, 0, 0, 0, 1, 1];
//! # bytes.extend([0x61; 32]);
//! # bytes.extend([1, 0, 0, 0, 0, 0, 0, 1, 0x90, 0, 0, 0, 0, 0, 0]);
//! let (mut inputs, mut outputs, mut items) = ([0; 4 * INPUT_WIDTH], [0; 4 * OUTPUT_WIDTH], [0; 4 * ITEM_WIDTH]);
//! let transaction = Transaction::read_strict(&bytes, &mut inputs, &mut outputs, &mut items)?;
//! let numbers = transaction.draft().outputs;
//! assert_eq!((numbers[output::VALUE_PREFIX], numbers[output::VALUE_LOW]), (1, 400));
//! # Ok::<(), takzulit::Refusal>(())
//! ```

#![forbid(unsafe_code)]

/// The numbers of the head, as the exported functions have it. [`Head`](crate::Head) names them too.
pub mod head {
    /// The version.
    pub const VERSION: usize = 0;
    /// The witness flag.
    pub const FLAG: usize = 1;
    /// How many inputs.
    pub const INPUTS: usize = 2;
    /// How many outputs.
    pub const OUTPUTS: usize = 3;
    /// How many items.
    pub const ITEMS: usize = 4;
    /// The locktime.
    pub const LOCKTIME: usize = 5;
    /// The length in bytes.
    pub const BYTES: usize = 6;
}

/// The numbers of an input record, [`INPUT_WIDTH`](crate::INPUT_WIDTH) in all.
pub mod input {
    /// Where the txid's 32 bytes stand.
    pub const TXID_POSITION: usize = 0;
    /// The output's number, without the flags.
    pub const VOUT: usize = 1;
    /// 1 pegin, 2 issuance, 3 both.
    pub const FLAGS: usize = 2;
    /// Where the script stands.
    pub const SCRIPT_POSITION: usize = 3;
    /// The script's length.
    pub const SCRIPT_LENGTH: usize = 4;
    /// The sequence.
    pub const SEQUENCE: usize = 5;
    /// Where the issuance starts: blinding nonce, entropy, amount, keys.
    pub const ISSUANCE_POSITION: usize = 6;
    /// The amount's prefix.
    pub const AMOUNT_PREFIX: usize = 7;
    /// The high half of an explicit amount.
    pub const AMOUNT_HIGH: usize = 8;
    /// Its low half.
    pub const AMOUNT_LOW: usize = 9;
    /// The prefix of the inflation keys.
    pub const KEYS_PREFIX: usize = 10;
    /// The high half of an explicit number of keys.
    pub const KEYS_HIGH: usize = 11;
    /// Its low half.
    pub const KEYS_LOW: usize = 12;
    /// Where the amount's proof stands.
    pub const AMOUNT_PROOF_POSITION: usize = 13;
    /// Its length.
    pub const AMOUNT_PROOF_LENGTH: usize = 14;
    /// Where the keys' proof stands.
    pub const KEYS_PROOF_POSITION: usize = 15;
    /// Its length.
    pub const KEYS_PROOF_LENGTH: usize = 16;
    /// The number of its first item in the item table, from 0.
    pub const FIRST_ITEM: usize = 17;
    /// How many items from there on are its script stack's.
    pub const SCRIPT_ITEMS: usize = 18;
    /// And then how many its pegin stack's.
    pub const PEGIN_ITEMS: usize = 19;
}

/// The numbers of an output record, [`OUTPUT_WIDTH`](crate::OUTPUT_WIDTH) in all.
pub mod output {
    /// The asset's prefix.
    pub const ASSET_PREFIX: usize = 0;
    /// Where that prefix stands.
    pub const ASSET_POSITION: usize = 1;
    /// The value's prefix.
    pub const VALUE_PREFIX: usize = 2;
    /// Where that prefix stands.
    pub const VALUE_POSITION: usize = 3;
    /// The high half of an explicit value.
    pub const VALUE_HIGH: usize = 4;
    /// Its low half.
    pub const VALUE_LOW: usize = 5;
    /// The nonce's prefix.
    pub const NONCE_PREFIX: usize = 6;
    /// Where that prefix stands.
    pub const NONCE_POSITION: usize = 7;
    /// Where the script stands.
    pub const SCRIPT_POSITION: usize = 8;
    /// The script's length.
    pub const SCRIPT_LENGTH: usize = 9;
    /// Where the surjection proof stands.
    pub const SURJECTION_PROOF_POSITION: usize = 10;
    /// Its length.
    pub const SURJECTION_PROOF_LENGTH: usize = 11;
    /// Where the range proof stands.
    pub const RANGE_PROOF_POSITION: usize = 12;
    /// Its length.
    pub const RANGE_PROOF_LENGTH: usize = 13;
}

/// The numbers of an item record, [`ITEM_WIDTH`](crate::ITEM_WIDTH) in all.
pub mod item {
    /// Where the item stands.
    pub const POSITION: usize = 0;
    /// Its length.
    pub const LENGTH: usize = 1;
}
