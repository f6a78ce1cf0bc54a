//! Every field of our tables beside the original's; and a transaction of the original's made from tables.
//!
//! The original keeps no positions and no flag: a body is compared by the bytes at its position, the flag with whether
//! there is a witness.

use compare::paper::*;
use elements::bitcoin::hashes::Hash as _;
use elements::confidential::{Asset, Nonce, Value};
use elements::{
    AssetBlindingNonce, AssetEntropy, AssetId, AssetIssuance, LockTime, OutPoint, PeginData, PeginWitness, RangeProof,
    Script, Sequence, SurjectionProof, Transaction, TxIn, TxInWitness, TxOut, TxOutWitness, Txid, Witness,
};

/// A transaction as our tables show it over their source.
pub struct View<'a> {
    pub head: &'a Head,
    pub inputs: &'a [u32],
    pub outputs: &'a [u32],
    pub items: &'a [u32],
    pub source: &'a [u8],
}

impl<'a> View<'a> {
    pub fn of(order: &Order<'a>) -> View<'a> {
        let Order { head, inputs, outputs, items, source } = *order;
        View { head, inputs, outputs, items, source }
    }

    fn input(&self, number: usize) -> Option<&'a [u32]> {
        self.inputs.chunks_exact(INPUT).nth(number)
    }

    fn output(&self, number: usize) -> Option<&'a [u32]> {
        self.outputs.chunks_exact(OUTPUT).nth(number)
    }

    fn part(&self, position: usize) -> Option<[u8; 32]> {
        self.bytes(position, PART)?.try_into().ok()
    }

    fn bytes(&self, position: usize, length: usize) -> Option<&'a [u8]> {
        self.source.get(position..position.checked_add(length)?)
    }

    /// Position and length, as two numbers of a record.
    fn body(&self, numbers: &[u32]) -> Option<&'a [u8]> {
        self.bytes(numbers[0] as usize, numbers[1] as usize)
    }

    fn stack(&self, first: u32, count: u32) -> Option<Vec<&'a [u8]>> {
        (first..first.checked_add(count)?)
            .map(|item| self.body(self.items.get(item as usize * ITEM..)?.get(..ITEM)?))
            .collect()
    }

    fn pegin_stack(&self, record: &[u32]) -> Option<Vec<&'a [u8]>> {
        self.stack(record[17].checked_add(record[18])?, record[19])
    }

    /// Prefix, high, low, and where the prefix stands.
    fn value(&self, numbers: [u32; 3], position: usize) -> Option<Value> {
        let [prefix, high, low] = numbers;
        match prefix {
            0 => Some(Value::Null),
            1 => Some(Value::Explicit(u64::from(high) << 32 | u64::from(low))),
            8 | 9 => Value::from_commitment(&prefixed(prefix, self.part(position + 1)?)).ok(),
            _ => None,
        }
    }

    /// The original's transaction that these tables show: None where they show none, or one with a pegin stack that the
    /// original can't hold.
    pub fn transaction(&self) -> Option<Transaction> {
        let [version, _, inputs, outputs, _, locktime, _] = *self.head;
        Some(Transaction {
            version,
            lock_time: LockTime::from_consensus(locktime),
            input: (0..inputs as usize).map(|number| self.txin(number)).collect::<Option<_>>()?,
            output: (0..outputs as usize).map(|number| self.txout(number)).collect::<Option<_>>()?,
        })
    }

    fn txin(&self, number: usize) -> Option<TxIn> {
        let record = self.input(number)?;
        Some(TxIn {
            previous_output: OutPoint { txid: Txid::from_byte_array(self.part(record[0] as usize)?), vout: record[1] },
            is_pegin: record[2] & PEGIN != 0,
            script_sig: Script::from(self.body(&record[3..])?.to_vec()),
            sequence: Sequence::from_consensus(record[5]),
            asset_issuance: self.issuance(record)?,
            witness: if self.head[1] == 1 { self.input_witness(record)? } else { TxInWitness::empty() },
        })
    }

    fn issuance(&self, record: &[u32]) -> Option<AssetIssuance> {
        if record[2] & ISSUANCE == 0 {
            return Some(AssetIssuance::null());
        }
        let position = record[6] as usize;
        let keys = position + 64 + value_width(record[7]);
        Some(AssetIssuance {
            asset_blinding_nonce: AssetBlindingNonce::from_byte_array(self.part(position)?),
            asset_entropy: AssetEntropy::from_byte_array(self.part(position + PART)?),
            amount: self.value([record[7], record[8], record[9]], position + 64)?,
            inflation_keys: self.value([record[10], record[11], record[12]], keys)?,
        })
    }

    fn input_witness(&self, record: &[u32]) -> Option<TxInWitness> {
        Some(TxInWitness {
            amount_rangeproof: RangeProof::from_bytes(self.body(&record[13..])?),
            inflation_keys_rangeproof: RangeProof::from_bytes(self.body(&record[15..])?),
            script_witness: Witness::from_slice(&self.stack(record[17], record[18])?),
            pegin_witness: pegin_witness(&self.pegin_stack(record)?)?,
        })
    }

    fn txout(&self, number: usize) -> Option<TxOut> {
        let record = self.output(number)?;
        let after = |number: usize| self.part(record[number] as usize + 1);
        Some(TxOut {
            asset: match record[0] {
                0 => Asset::Null,
                1 => Asset::Explicit(AssetId::from_byte_array(after(1)?)),
                prefix => Asset::from_commitment(&prefixed(prefix, after(1)?)).ok()?,
            },
            value: self.value([record[2], record[4], record[5]], record[3] as usize)?,
            nonce: match record[6] {
                0 => Nonce::Null,
                1 => Nonce::Explicit(after(7)?),
                prefix => Nonce::from_commitment(&prefixed(prefix, after(7)?)).ok()?,
            },
            script_pubkey: Script::from(self.body(&record[8..])?.to_vec()),
            witness: if self.head[1] == 1 { self.output_witness(record)? } else { TxOutWitness::empty() },
        })
    }

    fn output_witness(&self, record: &[u32]) -> Option<TxOutWitness> {
        Some(TxOutWitness {
            surjection_proof: SurjectionProof::from_bytes(self.body(&record[10..])?),
            rangeproof: RangeProof::from_bytes(self.body(&record[12..])?),
        })
    }

    /// The first field in which the two differ.
    pub fn difference(&self, original: &Transaction) -> Option<String> {
        let [version, flag, inputs, outputs, items, locktime, _] = *self.head;
        let stacks = |input: &TxIn| input.witness.script_witness.len() + input.witness.pegin_witness.len();
        let numbers = [
            ("version", version as usize, original.version as usize),
            ("flag", flag as usize, original.has_witness() as usize),
            ("inputs", inputs as usize, original.input.len()),
            ("outputs", outputs as usize, original.output.len()),
            ("items", items as usize, original.input.iter().map(stacks).sum()),
            ("locktime", locktime as usize, original.lock_time.to_consensus_u32() as usize),
        ];
        if let Some((name, ours, theirs)) = numbers.iter().find(|(_, ours, theirs)| ours != theirs) {
            return Some(format!("{name}: ours {ours}, the original's {theirs}"));
        }
        let input = (0..original.input.len()).find_map(|at| self.input_difference(at, &original.input[at]));
        input.or_else(|| (0..original.output.len()).find_map(|at| self.output_difference(at, &original.output[at])))
    }

    fn input_difference(&self, number: usize, original: &TxIn) -> Option<String> {
        let Some(record) = self.input(number) else {
            return Some(format!("input {number}: no record"));
        };
        let witness = &original.witness;
        let script: Vec<&[u8]> = witness.script_witness.iter().collect();
        let flags = PEGIN * u32::from(original.is_pegin) | ISSUANCE * u32::from(original.has_issuance());
        let same = [
            ("txid", self.part(record[0] as usize) == Some(original.previous_output.txid.to_byte_array())),
            ("vout", record[1] == original.previous_output.vout),
            ("flags", record[2] == flags),
            ("script", self.body(&record[3..]) == Some(original.script_sig.as_bytes())),
            ("sequence", record[5] == original.sequence.to_consensus_u32()),
            ("issuance", self.issuance(record) == Some(original.asset_issuance)),
            ("amount proof", self.body(&record[13..]) == Some(witness.amount_rangeproof.as_bytes())),
            ("keys proof", self.body(&record[15..]) == Some(witness.inflation_keys_rangeproof.as_bytes())),
            ("script stack", self.stack(record[17], record[18]) == Some(script)),
            (
                "pegin stack",
                self.pegin_stack(record)
                    == Some(pegin_items(&witness.pegin_witness).iter().map(|item| &item[..]).collect()),
            ),
        ];
        same.iter().find(|(_, same)| !same).map(|(name, _)| format!("input {number}: {name}"))
    }

    fn output_difference(&self, number: usize, original: &TxOut) -> Option<String> {
        let Some(record) = self.output(number) else {
            return Some(format!("output {number}: no record"));
        };
        let witness = &original.witness;
        let made = self.txout(number);
        let same = [
            ("asset", made.as_ref().map(|made| made.asset) == Some(original.asset)),
            ("value", made.as_ref().map(|made| made.value) == Some(original.value)),
            ("nonce", made.as_ref().map(|made| made.nonce) == Some(original.nonce)),
            ("script", self.body(&record[8..]) == Some(original.script_pubkey.as_bytes())),
            ("surjection proof", self.body(&record[10..]) == Some(witness.surjection_proof.as_bytes())),
            ("range proof", self.body(&record[12..]) == Some(witness.rangeproof.as_bytes())),
        ];
        same.iter().find(|(_, same)| !same).map(|(name, _)| format!("output {number}: {name}"))
    }
}

pub fn value_width(prefix: u32) -> usize {
    match prefix {
        0 => 1,
        1 => 9,
        _ => 33,
    }
}

fn prefixed(prefix: u32, part: [u8; 32]) -> [u8; 33] {
    let mut bytes = [prefix as u8; 33];
    bytes[1..].copy_from_slice(&part);
    bytes
}

/// The six items of a pegin stack, out of the fields that the original makes of them; or none.
fn pegin_items(witness: &PeginWitness) -> Vec<Vec<u8>> {
    let Some(data) = witness.data() else {
        return Vec::new();
    };
    vec![
        data.value.to_le_bytes().to_vec(),
        data.asset_id.to_byte_array().to_vec(),
        data.genesis_hash.to_byte_array().to_vec(),
        data.claim_script.as_bytes().to_vec(),
        data.transaction.clone(),
        data.merkle_proof.clone(),
    ]
}

fn pegin_witness(stack: &[&[u8]]) -> Option<PeginWitness> {
    let [value, asset, genesis, script, transaction, proof] = stack else {
        return stack.is_empty().then(|| PeginWitness::EMPTY);
    };
    Some(PeginWitness::new(PeginData {
        value: u64::from_le_bytes((*value).try_into().ok()?),
        asset_id: AssetId::from_byte_array((*asset).try_into().ok()?),
        genesis_hash: elements::bitcoin::BlockHash::from_byte_array((*genesis).try_into().ok()?),
        claim_script: elements::bitcoin::ScriptBuf::from(script.to_vec()),
        transaction: transaction.to_vec(),
        merkle_proof: (proof.len() >= 80).then(|| proof.to_vec())?,
        referenced_block: elements::bitcoin::BlockHash::hash(&proof[..80]),
    }))
}
