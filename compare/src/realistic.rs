//! Transactions such as an Elements chain carries, one behind the other, for measuring speed.
//!
//! The generator in `generate` seeks the corners of the layout, so its transactions are small and odd. These are what
//! a night's work looks like: blinded outputs whose range proofs make up nearly all bytes, a fee, signatures.

use crate::generate::{put_compact, Random};
use crate::paper::*;
use std::ops::RangeInclusive;

/// Transactions in one stretch of memory, as a file would hold them.
pub struct Night {
    bytes: Vec<u8>,
    /// Where each transaction ends.
    ends: Vec<usize>,
}

impl Night {
    /// So many transactions of this seed.
    pub fn seeded(seed: u64, count: usize) -> Night {
        let mut maker = Maker { random: Random::seeded(seed), bytes: Vec::new() };
        let mut ends = Vec::with_capacity(count);
        for _ in 0..count {
            maker.transaction();
            ends.push(maker.bytes.len());
        }
        Night { bytes: maker.bytes, ends }
    }

    /// All bytes, one transaction behind the other.
    pub fn bytes(&self) -> &[u8] {
        &self.bytes
    }

    pub fn transactions(&self) -> impl Iterator<Item = &[u8]> {
        let starts = std::iter::once(0).chain(self.ends.iter().copied());
        starts.zip(&self.ends).map(|(start, &end)| &self.bytes[start..end])
    }
}

const INPUTS_OF_ONE: RangeInclusive<usize> = 1..=4;
const BLINDED_OUTPUTS: RangeInclusive<usize> = 2..=3;
const SCRIPT: RangeInclusive<usize> = 22..=34;
const SIGNATURE: RangeInclusive<usize> = 71..=72;
const PUBLIC_KEY: usize = 33;
/// Two of three public keys.
const MULTISIG_SCRIPT: usize = 105;
const SURJECTION_PROOF: usize = 67;
const RANGE_PROOF: RangeInclusive<usize> = 2_900..=4_200;

/// An issuance or a pegin: each in one transaction of fifty.
const SELDOM: usize = 50;

/// What sets an input apart from a common one.
#[derive(Clone, Copy, PartialEq, Eq)]
enum Special {
    None,
    Pegin,
    Issuance,
}

struct Maker {
    random: Random,
    bytes: Vec<u8>,
}

impl Maker {
    fn transaction(&mut self) {
        let inputs = self.between(INPUTS_OF_ONE);
        let blinded = self.between(BLINDED_OUTPUTS);
        // Only the first input is ever a special one.
        let special = match self.random.below(SELDOM) {
            0 => Special::Pegin,
            1 => Special::Issuance,
            _ => Special::None,
        };
        let of_input = |number| if number == 0 { special } else { Special::None };
        self.put(&2u32.to_le_bytes());
        self.put(&[1]);
        self.count(inputs);
        for number in 0..inputs {
            self.input(of_input(number));
        }
        self.count(blinded + 1);
        for _ in 0..blinded {
            self.blinded_output();
        }
        self.fee();
        self.put(&0u32.to_le_bytes());
        for number in 0..inputs {
            self.input_witness(of_input(number));
        }
        for _ in 0..blinded {
            self.body(SURJECTION_PROOF);
            self.body_between(RANGE_PROOF);
        }
        // The fee's two proofs.
        self.body(0);
        self.body(0);
    }

    fn input(&mut self, special: Special) {
        self.random_bytes(PART);
        let flags = match special {
            Special::None => 0,
            Special::Pegin => PEGIN,
            Special::Issuance => ISSUANCE,
        };
        let vout = self.random.below(4) as u32 | flags << 30;
        self.put(&vout.to_le_bytes());
        // Most outputs are spent by witness alone; a wrapped one shows its script of 23 bytes.
        let script = if self.random.once_in(8) { 23 } else { 0 };
        self.body(script);
        self.put(&0xffff_fffe_u32.to_le_bytes());
        if special == Special::Issuance {
            self.issuance();
        }
    }

    /// A blinded amount, and one reissuance token.
    fn issuance(&mut self) {
        self.random_bytes(PART);
        self.random_bytes(PART);
        self.part_after(&[8, 9]);
        self.explicit(1);
    }

    fn blinded_output(&mut self) {
        self.part_after(&[10, 11]);
        self.part_after(&[8, 9]);
        self.part_after(&[2, 3]);
        self.body_between(SCRIPT);
    }

    /// An explicit amount of an explicit asset; no nonce, no script.
    fn fee(&mut self) {
        self.part_after(&[1]);
        let amount = self.between(30..=900);
        self.explicit(amount as u64);
        self.put(&[0]);
        self.body(0);
    }

    fn input_witness(&mut self, special: Special) {
        if special == Special::Issuance {
            self.body_between(RANGE_PROOF);
        } else {
            self.body(0);
        }
        self.body(0);
        self.script_stack();
        if special == Special::Pegin {
            self.pegin_stack();
        } else {
            self.count(0);
        }
    }

    /// A signature and a key; one in six is two signatures of three keys.
    fn script_stack(&mut self) {
        if self.random.once_in(6) {
            self.count(4);
            self.body(0);
            self.body_between(SIGNATURE);
            self.body_between(SIGNATURE);
            self.body(MULTISIG_SCRIPT);
        } else {
            self.count(2);
            self.body_between(SIGNATURE);
            self.body(PUBLIC_KEY);
        }
    }

    /// Amount, asset, genesis hash, claim script, the other chain's transaction, its proof.
    fn pegin_stack(&mut self) {
        self.count(6);
        self.body(8);
        self.body(PART);
        self.body(PART);
        self.body_between(SCRIPT);
        self.body_between(190..=420);
        let hashes = self.between(9..=13);
        self.body(80 + 5 + 32 * hashes);
    }

    fn part_after(&mut self, prefixes: &[u8]) {
        let prefix = self.random.choose(prefixes);
        self.put(&[prefix]);
        self.random_bytes(PART);
    }

    fn explicit(&mut self, amount: u64) {
        self.put(&[1]);
        self.put(&amount.to_be_bytes());
    }

    fn body_between(&mut self, lengths: RangeInclusive<usize>) {
        let length = self.between(lengths);
        self.body(length);
    }

    fn body(&mut self, length: usize) {
        self.count(length);
        self.random_bytes(length);
    }

    fn count(&mut self, number: usize) {
        put_compact(&mut self.bytes, number as u64);
    }

    fn put(&mut self, bytes: &[u8]) {
        self.bytes.extend_from_slice(bytes);
    }

    fn between(&mut self, range: RangeInclusive<usize>) -> usize {
        range.start() + self.random.below(range.end() - range.start() + 1)
    }

    fn random_bytes(&mut self, length: usize) {
        let end = self.bytes.len() + length;
        while self.bytes.len() < end {
            let eight = self.random.draw().to_le_bytes();
            self.bytes.extend_from_slice(&eight);
        }
        self.bytes.truncate(end);
    }
}
