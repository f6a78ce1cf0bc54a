//! How a fuzz input is split.
//!
//! | Bytes | What |
//! |---|---|
//! | 0 | mode, modulo 4: read, write, forge, twin; 252 or above: with a sea |
//! | 1 to 6 | the tables' sizes in numbers, two bytes each, modulo 1024 |
//! | 7, 8 | length of the first piece |
//! | 9 to 12 | lengths of the further pieces, taken in turn; all 0: the rest is one piece |
//! | 13 | length of every piece of another cutting; 0: one piece |
//! | 14, 15 | with a sea: so many bytes at the transaction's end come after a sea of zero bytes |
//! | 16, 17 | with a sea: the bytes' number less 4,000,000, signed |
//! | 18 | whim: which call meets tables of another size, and which size |
//! | 19 | edits, modulo 25 |
//! | then | the edits, 11 bytes each |
//! | then | the transaction |
//!
//! Numbers are little-endian. The sea lets a short input reach the limit, which no fuzzer would by itself; it is rare because
//! it is slow.

use compare::paper::*;
use std::cell::RefCell;

#[derive(Clone, Copy, PartialEq, Eq, Debug)]
pub enum Mode {
    Read,
    Write,
    Forge,
    Twin,
}

pub const MODES: [Mode; 4] = [Mode::Read, Mode::Write, Mode::Forge, Mode::Twin];

/// One number to be changed: of the tables or the head (write), or of the state (forge).
#[derive(Clone, Copy, PartialEq, Eq, Debug)]
pub struct Edit {
    /// Modulo 4 where, divided by 4 and modulo 3 how: set, add, exclusive or.
    pub what: u8,
    pub index: u16,
    pub value: u64,
}

impl Edit {
    pub fn place(&self) -> usize {
        self.what as usize % 4
    }

    pub fn apply(&self, old: u64) -> u64 {
        match self.what / 4 % 3 {
            0 => self.value,
            1 => old.wrapping_add(self.value),
            _ => old ^ self.value,
        }
    }
}

#[derive(Clone, PartialEq, Eq, Debug)]
pub struct Plan {
    pub mode: Mode,
    pub sizes: [usize; 3],
    pub first: u16,
    pub turns: [u8; 4],
    pub other: u8,
    pub sea: bool,
    /// Bytes behind the sea.
    pub behind: u16,
    /// The number of all bytes less the limit.
    pub excess: i16,
    pub whim: u8,
    pub edits: Vec<Edit>,
    pub transaction: Vec<u8>,
}

const HEADER: usize = 20;
const EDIT: usize = 11;
/// There are fewer edits than these.
pub const MOST_EDITS: usize = 25;
const WITH_SEA: u8 = 252;
/// A table's size stays below this.
pub const SIZES: usize = 1024;
/// More pieces than these are handed in as one: each costs a comparison of all tables.
const MOST_PIECES: usize = 200;
/// Longer than the limit and any excess.
const SEA: usize = LIMIT + (1 << 16);

thread_local! {
    /// Zero bytes, borrowed by the plans that have a sea.
    static ZEROS: RefCell<Vec<u8>> = const { RefCell::new(Vec::new()) };
}

impl Plan {
    pub fn of(input: &[u8]) -> Option<Plan> {
        if input.len() < HEADER {
            return None;
        }
        let (header, rest) = input.split_at(HEADER);
        let pair = |at: usize| u16::from_le_bytes([header[at], header[at + 1]]);
        let count = (header[19] as usize % MOST_EDITS).min(rest.len() / EDIT);
        let (edits, transaction) = rest.split_at(count * EDIT);
        let edits = edits.chunks_exact(EDIT).map(|edit| Edit {
            what: edit[0],
            index: u16::from_le_bytes([edit[1], edit[2]]),
            value: u64::from_le_bytes(edit[3..].try_into().expect("eight bytes")),
        });
        Some(Plan {
            mode: MODES[header[0] as usize % 4],
            sizes: [1, 3, 5].map(|at| pair(at) as usize % SIZES),
            first: pair(7),
            turns: [header[9], header[10], header[11], header[12]],
            other: header[13],
            sea: header[0] >= WITH_SEA,
            behind: pair(14),
            excess: pair(16) as i16,
            whim: header[18],
            edits: edits.collect(),
            transaction: transaction.to_vec(),
        })
    }

    /// The fuzz input that is split into this plan.
    pub fn input(&self) -> Vec<u8> {
        let mut input = vec![self.mode as u8 + if self.sea { WITH_SEA } else { 0 }];
        for size in self.sizes {
            input.extend((size as u16).to_le_bytes());
        }
        input.extend(self.first.to_le_bytes());
        input.extend(self.turns);
        input.push(self.other);
        input.extend(self.behind.to_le_bytes());
        input.extend(self.excess.to_le_bytes());
        input.push(self.whim);
        input.push(self.edits.len() as u8);
        for edit in &self.edits {
            input.push(edit.what);
            input.extend(edit.index.to_le_bytes());
            input.extend(edit.value.to_le_bytes());
        }
        input.extend(&self.transaction);
        input
    }

    /// Hands over the transaction's bytes, with a sea if the plan says so.
    pub fn with_bytes<T>(&self, call: impl FnOnce(&[u8]) -> T) -> T {
        if !self.sea {
            return call(&self.transaction);
        }
        let behind = (self.behind as usize).min(self.transaction.len());
        let (front, back) = self.transaction.split_at(self.transaction.len() - behind);
        let length = (LIMIT as i64 + self.excess as i64) as usize;
        ZEROS.with(|zeros| {
            let mut zeros = zeros.borrow_mut();
            zeros.resize(SEA, 0);
            zeros[..front.len()].copy_from_slice(front);
            zeros[length - behind..length].copy_from_slice(back);
            let outcome = call(&zeros[..length]);
            zeros[..front.len()].fill(0);
            zeros[length - behind..length].fill(0);
            outcome
        })
    }

    /// The lengths of the pieces of so many bytes: they add up to them.
    pub fn pieces(&self, length: usize) -> Vec<usize> {
        let first = (self.first as usize).min(length);
        let mut pieces = vec![first];
        let mut left = length - first;
        if self.turns != [0; 4] {
            for turn in self.turns.iter().cycle().take(MOST_PIECES) {
                if left == 0 {
                    break;
                }
                let piece = (*turn as usize).min(left);
                pieces.push(piece);
                left -= piece;
            }
        }
        pieces.push(left);
        pieces
    }

    /// Another cutting of them.
    pub fn other_pieces(&self, length: usize) -> Vec<usize> {
        let each = self.other as usize;
        if each == 0 {
            return vec![length];
        }
        let whole = (length / each).min(MOST_PIECES);
        let mut pieces = vec![each; whole];
        pieces.push(length - whole * each);
        pieces
    }
}
