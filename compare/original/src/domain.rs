//! Document 01's oracle domain: "at most 4,000,000 bytes, tables with room, no outpoint of number 12, no Rust
//! allocation limit met, every blinding nonce, commitment, proof and pegin stack acceptable to Rust."
//!
//! A clause is asked where the two sides disagree. The side that read the transaction says what is in it: so that
//! neither's refusal is its own excuse.

use compare::paper::*;
use elements::{Transaction, TxIn, TxOut};
use std::mem::size_of;

#[derive(Clone, Copy, PartialEq, Eq, PartialOrd, Ord, Debug)]
pub enum Clause {
    Bytes,
    Room,
    Outpoint,
    Allocation,
    PeginStack,
}

pub const CLAUSES: [Clause; 5] =
    [Clause::Bytes, Clause::Room, Clause::Outpoint, Clause::Allocation, Clause::PeginStack];

/// "at most 4,000,000 bytes": those of the transaction.
pub fn few_bytes(taken: usize) -> bool {
    taken <= LIMIT
}

/// "tables with room": for the transaction that the original read, in tables of these sizes.
pub fn room(transaction: &Transaction, sizes: [usize; 3]) -> bool {
    let items = |input: &TxIn| input.witness.script_witness.len() + input.witness.pegin_witness.len();
    let wanted = [transaction.input.len(), transaction.output.len(), transaction.input.iter().map(items).sum()];
    (0..3).all(|table| wanted[table] <= sizes[table] / WIDTHS[table])
}

/// "no outpoint of number 12": "vout at or above 1,073,741,824 except 0xffffffff; 0xffffffff with a flag; 1,073,741,823
/// with both flags". No reading gives one, so it is a clause of writing alone.
pub fn outpoints_told_apart(order: &Order) -> bool {
    let inputs = order.head[2] as usize;
    order.inputs.chunks_exact(INPUT).take(inputs).all(|record| match (record[1], record[2]) {
        (ALL_ONES, flags) => flags == 0,
        (vout, 3) => vout < VOUT_END - 1,
        (vout, _) => vout < VOUT_END,
    })
}

/// "no Rust allocation limit met": the new reader's limits are 4,000,000 items, and bytes of an item (witness.rs:35,
/// :42); more don't go into 4,000,000 bytes. Those of scripts, proofs, inputs and outputs are the shims' and the same.
/// The older one's is on a list's count times its values' size (encode.rs:425), and that depends on the shims' sizes;
/// bytes with a length stay below it.
pub fn older_allocates(inputs: usize, outputs: usize) -> bool {
    let most = elements::encode::MAX_VEC_SIZE;
    inputs * size_of::<TxIn>() <= most && outputs * size_of::<TxOut>() <= most
}

// "every blinding nonce [..] acceptable to Rust" excludes nothing (issuance.rs:117). "Every commitment, proof": over
// the shims they are all acceptable, so what is compared here is more than the domain.

/// "every [..] pegin stack acceptable to Rust": none, or six items of lengths 8, 32, 32, any, any and at least 80
/// (pegin_witness.rs:366-387, :505). By our tables, of a reading that finished.
pub fn pegin_stacks_acceptable(head: &Head, inputs: &[u32], items: &[u32]) -> bool {
    inputs.chunks_exact(INPUT).take(head[2] as usize).all(|record| {
        let first = (record[17] + record[18]) as usize;
        let stack: Vec<u32> =
            (first..first + record[19] as usize).map(|item| items.get(item * ITEM + 1).copied().unwrap_or(0)).collect();
        matches!(stack[..], [] | [8, 32, 32, _, _, 80..=u32::MAX])
    })
}
