//! What was compared, and which features of the layout were seen in transactions that both sides read.

use crate::domain::{Clause, CLAUSES};
use crate::original::{Refusal, REFUSALS};
use elements::confidential::{Asset, Nonce, Value};
use elements::{Transaction, TxIn, TxOut};
use std::collections::BTreeMap;

/// Which of the original's two readers.
#[derive(Clone, Copy, PartialEq, Eq, PartialOrd, Ord, Debug)]
pub enum Reader {
    New,
    Older,
}

#[derive(Default)]
pub struct Tally {
    pub cases: u64,
    /// Tried again with room for all.
    pub again: u64,
    pub bytes: u64,
    pub pieces: u64,
    pub read: u64,
    pub fields: u64,
    pub written: u64,
    pub orders: u64,
    pub fee_differs: u64,
    refused: BTreeMap<(Reader, Refusal), u64>,
    apart: BTreeMap<(Reader, usize, Refusal), u64>,
    left_out: BTreeMap<(Reader, Clause), u64>,
    unwritten: BTreeMap<Clause, u64>,
    features: BTreeMap<String, u64>,
}

/// Every feature that has to be seen.
fn wanted() -> Vec<String> {
    let mut all: Vec<String> = [
        "flag 0",
        "flag 1",
        "no inputs",
        "no outputs",
        "pegin flag",
        "issuance flag",
        "both flags",
        "vout 0xffffffff",
        "vout 0x3fffffff",
    ]
    .map(String::from)
    .into();
    for (field, prefixes) in [
        ("asset", [0, 1, 10, 11]),
        ("value", [0, 1, 8, 9]),
        ("nonce", [0, 1, 2, 3]),
        ("amount", [0, 1, 8, 9]),
        ("keys", [0, 1, 8, 9]),
    ] {
        all.extend(prefixes.map(|prefix| format!("{field} prefix {prefix}")));
    }
    for field in [
        "input count",
        "output count",
        "script stack's count",
        "input script",
        "output script",
        "amount proof",
        "keys proof",
        "stack item",
        "surjection proof",
        "range proof",
    ] {
        all.extend([1, 3, 5].map(|width| format!("{field} in {width} bytes")));
    }
    all.extend(
        ["script stack", "pegin stack", "empty item", "empty witness beside others", "fee", "height", "time"]
            .map(String::from),
    );
    all
}

impl Tally {
    pub fn refused(&mut self, reader: Reader, refusal: Refusal) {
        *self.refused.entry((reader, refusal)).or_insert(0) += 1;
    }

    /// Both refuse, but for reasons that can't be held together: the original for what ours accepts, or ours for a
    /// limit.
    pub fn apart(&mut self, reader: Reader, number: usize, refusal: Refusal) {
        *self.apart.entry((reader, number, refusal)).or_insert(0) += 1;
    }

    pub fn left_out(&mut self, reader: Reader, clause: Clause) {
        *self.left_out.entry((reader, clause)).or_insert(0) += 1;
    }

    /// An order outside the domain: a pegin stack that the original can't hold, or an outpoint that ours refuses with 12.
    pub fn unwritten(&mut self, clause: Clause) {
        *self.unwritten.entry(clause).or_insert(0) += 1;
    }

    fn feature(&mut self, name: &str) {
        match self.features.get_mut(name) {
            Some(count) => *count += 1,
            None => drop(self.features.insert(name.into(), 1)),
        }
    }

    /// A count or length by the width of its form.
    fn width(&mut self, field: &str, number: usize) {
        let width = encoding::CompactSizeEncoder::encoded_size(number);
        self.feature(&format!("{field} in {width} bytes"));
    }

    /// A transaction that both sides read. Every thirty-second is looked at, and every long one.
    pub fn transaction(&mut self, transaction: &Transaction, taken: usize) {
        self.read += 1;
        if taken < 600 && self.read % 32 != 0 {
            return;
        }
        self.feature(if transaction.has_witness() { "flag 1" } else { "flag 0" });
        self.feature(if transaction.lock_time.is_block_time() { "time" } else { "height" });
        for (name, count) in [("input", transaction.input.len()), ("output", transaction.output.len())] {
            self.width(&format!("{name} count"), count);
            if count == 0 {
                self.feature(&format!("no {name}s"));
            }
        }
        transaction.input.iter().take(300).for_each(|input| self.input(input, transaction.has_witness()));
        transaction.output.iter().take(300).for_each(|output| self.output(output, transaction.has_witness()));
    }

    fn input(&mut self, input: &TxIn, witness: bool) {
        self.width("input script", input.script_sig.len());
        match (input.is_pegin, input.has_issuance()) {
            (true, true) => self.feature("both flags"),
            (true, false) => self.feature("pegin flag"),
            (false, true) => self.feature("issuance flag"),
            _ => {}
        }
        match input.previous_output.vout {
            0xffff_ffff => self.feature("vout 0xffffffff"),
            0x3fff_ffff => self.feature("vout 0x3fffffff"),
            _ => {}
        }
        if input.has_issuance() {
            self.value("amount", &input.asset_issuance.amount);
            self.value("keys", &input.asset_issuance.inflation_keys);
        }
        if !witness {
            return;
        }
        self.width("amount proof", input.witness.amount_rangeproof.len());
        self.width("keys proof", input.witness.inflation_keys_rangeproof.len());
        self.width("script stack's count", input.witness.script_witness.len());
        for (name, seen) in [
            ("script stack", !input.witness.script_witness.is_empty()),
            ("pegin stack", !input.witness.pegin_witness.is_empty()),
            ("empty witness beside others", input.witness.is_empty()),
        ] {
            if seen {
                self.feature(name);
            }
        }
        for item in input.witness.script_witness.iter().take(300) {
            self.width("stack item", item.len());
            if item.is_empty() {
                self.feature("empty item");
            }
        }
    }

    fn output(&mut self, output: &TxOut, witness: bool) {
        let asset = match output.asset {
            Asset::Null => 0,
            Asset::Explicit(_) => 1,
            Asset::Confidential(point) => point.serialize()[0],
        };
        let nonce = match output.nonce {
            Nonce::Null => 0,
            Nonce::Explicit(_) => 1,
            Nonce::Confidential(point) => point.serialize()[0],
        };
        self.feature(&format!("asset prefix {asset}"));
        self.feature(&format!("nonce prefix {nonce}"));
        self.value("value", &output.value);
        self.width("output script", output.script_pubkey.len());
        if output.is_fee() {
            self.feature("fee");
        }
        if witness {
            self.width("surjection proof", output.witness.surjection_proof.len());
            self.width("range proof", output.witness.rangeproof.len());
        }
    }

    fn value(&mut self, field: &str, value: &Value) {
        let prefix = match value {
            Value::Null => 0,
            Value::Explicit(_) => 1,
            Value::Confidential(point) => point.serialize()[0],
        };
        self.feature(&format!("{field} prefix {prefix}"));
    }

    pub fn print(&self) {
        println!(
            "{} inputs, {} of them again with room for all; {} bytes, in one piece and in {} pieces",
            self.cases, self.again, self.bytes, self.pieces
        );
        println!("{} transactions read by both, {} fields in them the same", self.read, self.fields);
        println!(
            "{} of them written, and {} orders with bodies elsewhere, the same bytes by both",
            self.written, self.orders
        );
        for reader in [Reader::New, Reader::Older] {
            let name = if reader == Reader::New { "the new reader" } else { "the older reader" };
            println!(
                "{name}: refused by both for the same reason: {}",
                listed(&self.refused, |key| (key.0 == reader).then(|| format!("{:?}", key.1)))
            );
            println!(
                "  refused by both, ours by number, the original for: {}",
                listed(&self.apart, |key| (key.0 == reader).then(|| format!("{} {:?}", key.1, key.2)))
            );
            println!(
                "  outside the domain, read by one alone, by the clause: {}",
                listed(&self.left_out, |key| (key.0 == reader).then(|| format!("{:?}", key.1)))
            );
        }
        println!(
            "orders outside the domain, written by one alone, by the clause: {}",
            listed(&self.unwritten, |key| Some(format!("{key:?}")))
        );
        println!("outputs that are a fee by our question alone: {}", self.fee_differs);
        println!("features, in one of 32 transactions: {}", listed(&self.features, |key| Some(key.clone())));
    }

    /// Features, refusals and clauses that no input showed.
    pub fn unseen(&self) -> Vec<String> {
        let mut unseen: Vec<String> = wanted().into_iter().filter(|name| !self.features.contains_key(name)).collect();
        for reader in [Reader::New, Reader::Older] {
            let same = REFUSALS.iter().filter(|refusal| {
                !matches!(refusal, Refusal::PeginStack | Refusal::Allocation | Refusal::Follower | Refusal::Other)
            });
            unseen.extend(
                same.filter(|&&refusal| !self.refused.contains_key(&(reader, refusal)))
                    .map(|refusal| format!("{reader:?} {refusal:?}")),
            );
            // 12 is a clause of writing; the new reader meets no allocation limit.
            let clauses = CLAUSES
                .iter()
                .filter(|&&clause| clause != Clause::Outpoint && (clause, reader) != (Clause::Allocation, Reader::New));
            unseen.extend(
                clauses
                    .filter(|&&clause| !self.left_out.contains_key(&(reader, clause)))
                    .map(|clause| format!("{reader:?} {clause:?}")),
            );
        }
        let orders = [Clause::Outpoint, Clause::PeginStack].into_iter();
        unseen.extend(
            orders.filter(|clause| !self.unwritten.contains_key(clause)).map(|clause| format!("order {clause:?}")),
        );
        unseen
    }
}

fn listed<K>(counts: &BTreeMap<K, u64>, name: impl Fn(&K) -> Option<String>) -> String {
    let all: Vec<String> = counts.iter().filter_map(|(key, count)| Some(format!("{} {count}", name(key)?))).collect();
    if all.is_empty() {
        "none".into()
    } else {
        all.join(", ")
    }
}
