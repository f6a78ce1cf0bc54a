//! What was seen: how many inputs and pieces, each refusal by its number and the place where it arose, and what the accepted
//! transactions held. And what never was.

use crate::log::{Ending, Entry, Field, Part, Reading, FIELDS, PARTS};
use crate::paper::*;
use crate::plain::CAUSES;
use std::collections::BTreeMap;

pub struct Tally {
    pub inputs: u64,
    pub truncations: u64,
    pub calls: u64,
    pub bytes: u64,
    pub writings: u64,
    pub read_back: u64,
    finished: u64,
    /// Accepted transactions by [`FEATURES`].
    featured: Vec<u64>,
    refused: Vec<u64>,
    wanted: Vec<u64>,
    /// Numbers that don't belong to a field: 9 and 10.
    numbered: [u64; 16],
    written: u64,
    unwritten: BTreeMap<&'static str, u64>,
}

const NUMBERS: usize = 9;

/// What an accepted transaction may hold: words, a table, a record's number in it, and the values there, or none for any above 0.
type Feature = (&'static str, usize, usize, Option<u32>);

#[rustfmt::skip]
const FEATURES: &[Feature] = &[
    ("input: no flag", INPUTS, 2, Some(0)),
    ("input: pegin", INPUTS, 2, Some(PEGIN)),
    ("input: issuance", INPUTS, 2, Some(ISSUANCE)),
    ("input: pegin and issuance", INPUTS, 2, Some(PEGIN | ISSUANCE)),
    ("input: vout 0xffffffff", INPUTS, 1, Some(ALL_ONES)),
    ("input: script", INPUTS, 4, None),
    ("issuance: amount null", INPUTS, 7, Some(0)),
    ("issuance: amount explicit", INPUTS, 7, Some(1)),
    ("issuance: amount 8", INPUTS, 7, Some(8)),
    ("issuance: amount 9", INPUTS, 7, Some(9)),
    ("issuance: keys null", INPUTS, 10, Some(0)),
    ("issuance: keys explicit", INPUTS, 10, Some(1)),
    ("issuance: keys 8", INPUTS, 10, Some(8)),
    ("issuance: keys 9", INPUTS, 10, Some(9)),
    ("issuance: amount proof", INPUTS, 14, None),
    ("issuance: keys proof", INPUTS, 16, None),
    ("input: script items", INPUTS, 18, None),
    ("input: pegin items", INPUTS, 19, None),
    ("output: asset null", OUTPUTS, 0, Some(0)),
    ("output: asset explicit", OUTPUTS, 0, Some(1)),
    ("output: asset 10", OUTPUTS, 0, Some(10)),
    ("output: asset 11", OUTPUTS, 0, Some(11)),
    ("output: value null", OUTPUTS, 2, Some(0)),
    ("output: value explicit", OUTPUTS, 2, Some(1)),
    ("output: value 8", OUTPUTS, 2, Some(8)),
    ("output: value 9", OUTPUTS, 2, Some(9)),
    ("output: high half", OUTPUTS, 4, None),
    ("output: nonce null", OUTPUTS, 6, Some(0)),
    ("output: nonce explicit", OUTPUTS, 6, Some(1)),
    ("output: nonce 2", OUTPUTS, 6, Some(2)),
    ("output: nonce 3", OUTPUTS, 6, Some(3)),
    ("output: fee", OUTPUTS, 9, Some(0)),
    ("output: script", OUTPUTS, 9, None),
    ("output: surjection proof", OUTPUTS, 11, None),
    ("output: range proof", OUTPUTS, 13, None),
    ("item: empty", ITEMS, 1, Some(0)),
    ("item: not empty", ITEMS, 1, None),
];

/// So many entries of an accepted transaction's log are looked at.
const LOOKED_AT: usize = 500;

fn shows(&(_, table, number, value): &Feature, entry: &Entry) -> bool {
    let held = value.map_or(entry.value > 0, |value| entry.value == value);
    held && entry.table == table && entry.index % WIDTHS[table] == number
}

fn slot(number: usize, field: Field, part: Part) -> usize {
    (number * FIELDS.len() + field as usize) * PARTS.len() + part as usize
}

impl Default for Tally {
    fn default() -> Tally {
        Tally {
            inputs: 0,
            truncations: 0,
            calls: 0,
            bytes: 0,
            writings: 0,
            read_back: 0,
            finished: 0,
            featured: vec![0; FEATURES.len()],
            refused: vec![0; slot(NUMBERS, Field::Version, Part::Fixed)],
            wanted: vec![0; slot(1, Field::Version, Part::Fixed)],
            numbered: [0; 16],
            written: 0,
            unwritten: BTreeMap::new(),
        }
    }
}

impl Tally {
    pub fn reading(&mut self, reading: &Reading) {
        match reading.ending {
            Ending::Finished(_) => self.accepted(&reading.entries),
            Ending::More(field, part) => self.wanted[slot(0, field, part)] += 1,
            Ending::Refused(refusal) => self.refused[slot(refusal.number, refusal.field, refusal.part)] += 1,
        }
    }

    fn accepted(&mut self, entries: &[Entry]) {
        self.finished += 1;
        // Long ones hold little that short ones don't.
        let entries = &entries[..entries.len().min(LOOKED_AT)];
        for (count, feature) in self.featured.iter_mut().zip(FEATURES) {
            *count += entries.iter().any(|entry| shows(feature, entry)) as u64;
        }
    }

    pub fn number(&mut self, number: usize) {
        if let Some(count) = self.numbered.get_mut(number) {
            *count += 1;
        }
    }

    pub fn writing(&mut self, cause: Option<&'static str>) {
        match cause {
            None => self.written += 1,
            Some(cause) => *self.unwritten.entry(cause).or_insert(0) += 1,
        }
    }

    pub fn print(&self) {
        let Tally { inputs, truncations, calls, bytes, .. } = self;
        println!("inputs {inputs} and {truncations} truncations of them, calls {calls}, bytes {bytes}");
        println!("reader:");
        println!("  finished {}: {}", self.finished, self.features().join(", "));
        for number in 2..NUMBERS {
            self.print_refusals(number);
        }
        let wanted: Vec<String> = self.lines(&self.wanted, 0);
        println!("  1 (bytes end within): {}", wanted.join(", "));
        println!("  9 strict, bytes follow: {}", self.numbered[9]);
        println!("  10 other table sizes: {}", self.numbered[10]);
        println!("writer: {} orders, {} written, {} read back", self.writings, self.written, self.read_back);
        for cause in CAUSES {
            println!("  {cause}: {}", self.unwritten.get(cause).copied().unwrap_or(0));
        }
    }

    fn features(&self) -> Vec<String> {
        self.featured.iter().zip(FEATURES).map(|(count, feature)| format!("{} {count}", feature.0)).collect()
    }

    fn print_refusals(&self, number: usize) {
        println!("  {number}: {}", self.lines(&self.refused, number).join(", "));
    }

    fn lines(&self, counts: &[u64], number: usize) -> Vec<String> {
        let mut lines = Vec::new();
        for &field in FIELDS {
            for part in PARTS {
                let count = counts[slot(number, field, part)];
                if count > 0 {
                    lines.push(match part {
                        Part::Fixed => format!("{field:?} {count}"),
                        _ => format!("{field:?}.{part:?} {count}"),
                    });
                }
            }
        }
        lines
    }

    /// What the paper allows and no input showed: refusals at each place, and what a transaction may hold.
    pub fn unseen(&self) -> Vec<String> {
        let kinds = [
            ("truncations", self.truncations),
            ("reader finished", self.finished),
            ("reader 9", self.numbered[9]),
            ("reader 10", self.numbered[10]),
            ("writer written", self.written),
            ("writer read back", self.read_back),
        ];
        let mut unseen: Vec<String> = kinds.iter().filter(|kind| kind.1 == 0).map(|kind| kind.0.into()).collect();
        let features = self.featured.iter().zip(FEATURES).filter(|(&count, _)| count == 0);
        unseen.extend(features.map(|(_, feature)| format!("accepted {}", feature.0)));
        for (number, field, part) in possible() {
            if self.refused[slot(number, field, part)] == 0 {
                unseen.push(format!("reader {number} {field:?}.{part:?}"));
            }
        }
        for cause in CAUSES {
            if !self.unwritten.contains_key(cause) {
                unseen.push(format!("writer {cause}"));
            }
        }
        unseen
    }
}

/// Each refusal of the reading at each place where it can arise.
fn possible() -> Vec<(usize, Field, Part)> {
    use Field::*;
    let counts = [InputCount, OutputCount, ScriptCount, PeginCount];
    let bodies = [Script, OutputScript, AmountProof, KeysProof, ScriptItem, PeginItem, SurjectionProof, RangeProof];
    let prefixes = [AmountPrefix, KeysPrefix, AssetPrefix, ValuePrefix, NoncePrefix];
    let others = [
        Txid,
        Vout,
        Sequence,
        BlindingNonce,
        Entropy,
        AmountExplicit,
        AmountCommitment,
        KeysExplicit,
        KeysCommitment,
        AssetPart,
        ValueExplicit,
        ValueCommitment,
        NoncePart,
        Locktime,
    ];
    let mut all = vec![(6, KeysPrefix, Part::Fixed), (7, Flag, Part::Fixed), (8, Whole, Part::Fixed)];
    all.extend(prefixes.iter().chain(&others).map(|&field| (2, field, Part::Fixed)));
    all.extend(prefixes.map(|field| (5, field, Part::Fixed)));
    for field in counts.into_iter().chain(bodies) {
        all.push((3, field, Part::Further));
        // No body comes before the input count, so it can't lie near the limit.
        if field != InputCount {
            all.push((2, field, Part::First));
            all.push((2, field, Part::Further));
        }
    }
    all.extend(counts.map(|field| (4, field, Part::First)));
    all.extend(bodies.map(|field| (2, field, Part::Body)));
    all
}
