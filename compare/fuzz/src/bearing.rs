//! Which bytes are bearing, told from the judge's log of a reading.
//!
//! Bearing are all bytes taken, except txids, blinding nonces, entropies, the 32-byte parts of assets, nonces and
//! commitments, and bodies of scripts, proofs and stack items (01, "Bearing bytes").

use compare::log::{Ending, Field, Reading};
use compare::paper::*;
use compare::plain;
use compare::slips::Slip;

/// For each byte, whether it is bearing.
pub fn bearing(bytes: &[u8], sizes: [usize; 3], reading: &Reading) -> Vec<bool> {
    let mut map = vec![false; bytes.len()];
    map[..reading.taken].fill(true);
    for entry in &reading.entries {
        // A prefix and a body's length enter with their own last byte: what they announce begins there.
        let (start, width) = match (entry.table, entry.index % WIDTHS[entry.table]) {
            (INPUTS, 0) => (entry.value as usize, PART),
            // Blinding nonce and entropy.
            (INPUTS, 6) => (entry.value as usize, 2 * PART),
            (INPUTS, 7 | 10) | (OUTPUTS, 2) if entry.value > 1 => (entry.at, PART),
            (OUTPUTS, 0 | 6) if entry.value > 0 => (entry.at, PART),
            (INPUTS, 4 | 14 | 16) | (OUTPUTS, 9 | 11 | 13) | (ITEMS, 1) => (entry.at, entry.value as usize),
            _ => continue,
        };
        // The bytes may end within it.
        let end = (start + width).min(bytes.len());
        map[start..end].fill(false);
    }
    if let Ending::More(field @ (Field::Txid | Field::BlindingNonce), _) = reading.ending {
        // These two enter nothing before their last byte: their start is where the reading begins to want them.
        let within = |length: &usize| {
            let part = plain::read(&bytes[..*length], sizes, Slip::None);
            part.entries.len() == reading.entries.len() && matches!(part.ending, Ending::More(last, _) if last == field)
        };
        let start = (0..=bytes.len()).rev().take(PART).take_while(within).last().unwrap_or(bytes.len());
        map[start..].fill(false);
    }
    map
}
