//! Where the inputs come from: the judge's generator and damage. Its pegin stacks have any items; the original takes
//! none, or six of certain lengths. So most of them are made such, a few nearly such, and a few are left as they are.

use crate::drive::Input;
use compare::damage::{self, Case, Sea};
use compare::generate::{put_compact, Kind, Made, Random, Span};
use compare::log::Field;
use compare::paper::*;

/// Makes the cases of a seed, one after the other.
pub struct Cases {
    seed: u64,
    made: Made,
    acceptable: Made,
    sea: Sea,
    case: Case,
}

impl Cases {
    pub fn new(seed: u64) -> Cases {
        Cases { seed, made: Made::default(), acceptable: Made::default(), sea: Sea::default(), case: Case::default() }
    }

    /// The case, as the comparison takes it.
    pub fn input(&self) -> Input<'_> {
        Input { bytes: &self.case.bytes, pieces: &self.case.pieces, sizes: self.case.sizes }
    }

    /// Fills in the case of this number; each has its own seed. What is drawn further is for what is done with the
    /// case.
    pub fn make(&mut self, number: u64) -> Random {
        let mut random = Random::seeded(self.seed ^ number.wrapping_mul(0xd134_2543_de82_ef95));
        random.draw();
        loop {
            damage::retire(&mut self.case, &mut self.sea);
            self.made.again(&mut random);
            with_pegin_stacks(&self.made, &mut self.acceptable, &mut random);
            damage::reading_case(&mut self.case, &self.acceptable, &mut self.sea, &mut random);
            // A case near the limit costs hundreds of others: one in 16 of the judge's is kept.
            if self.case.bytes.len() < LONG || random.once_in(16) {
                break;
            }
        }
        if !random.once_in(8) {
            self.case.sizes = [0, 1, 2].map(|table| (self.acceptable.counts[table] + 1) * WIDTHS[table]);
        }
        random
    }
}

const LONG: usize = 1_000_000;

/// The same transaction with other pegin stacks where it has some.
fn with_pegin_stacks(from: &Made, to: &mut Made, random: &mut Random) {
    to.bytes.clear();
    to.spans.clear();
    to.counts = from.counts;
    let mut at = 0;
    while at < from.spans.len() {
        let span = from.spans[at];
        if span.field == Field::PeginCount && !random.once_in(16) {
            let items = from.spans[at + 1..].iter().take_while(|span| span.field == Field::PeginItem).count();
            at += 1 + items;
            to.counts[ITEMS] -= items / 2;
            pegin_stack(to, items > 0, random);
            continue;
        }
        put(to, span.field, span.kind, &from.bytes[span.start..span.start + span.width]);
        at += 1;
    }
}

/// No items; or six of lengths 8, 32, 32, any, any and at least 80 (pegin_witness.rs:366-387, :505), of which once in
/// 16 one has a wrong length, and once in 32 the last is missing.
fn pegin_stack(to: &mut Made, full: bool, random: &mut Random) {
    if !full {
        return put(to, Field::PeginCount, Kind::Count, &[0]);
    }
    let any = [0, 0, 1, 25, 252, 253, 300];
    let mut lengths = [8, 32, 32, random.choose(&any), random.choose(&any), 80 + random.choose(&any)];
    if random.once_in(16) {
        let item = random.choose(&[0, 1, 2, 5]);
        lengths[item] = random.choose(&[lengths[item] - 1, lengths[item] + 1, 0, 79]);
    }
    let count = if random.once_in(32) { 5 } else { 6 };
    to.counts[ITEMS] += count;
    put(to, Field::PeginCount, Kind::Count, &[count as u8]);
    for &length in &lengths[..count] {
        let mut form = Vec::new();
        put_compact(&mut form, length as u64);
        put(to, Field::PeginItem, Kind::Length, &form);
        let body: Vec<u8> = (0..length).map(|_| random.draw() as u8).collect();
        put(to, Field::PeginItem, Kind::Body, &body);
    }
}

fn put(to: &mut Made, field: Field, kind: Kind, bytes: &[u8]) {
    to.spans.push(Span { field, kind, start: to.bytes.len(), width: bytes.len() });
    to.bytes.extend_from_slice(bytes);
}

/// Transactions that chance seldom makes: counts and lengths at the edges of their forms, and bytes at the limit. Each
/// with the records that it fills.
pub fn wide() -> Vec<(String, Vec<u8>, [usize; 3])> {
    let mut all = Vec::new();
    for number in [252, 253, 65_535, 65_536] {
        all.push((format!("{number} inputs"), plain(&input(&[]).repeat(number), number, &[], 0, &[]), [number, 0, 0]));
        all.push((format!("{number} outputs"), plain(&[], 0, &[0; 4].repeat(number), number, &[]), [0, number, 0]));
        let long = body(number);
        all.push((format!("scripts of {number} bytes"), plain(&input(&long), 1, &output(&long), 1, &[]), [1, 1, 0]));
        let mut stack = vec![0, 0];
        put_compact(&mut stack, number as u64);
        stack.resize(stack.len() + number + 1, 0);
        all.push((format!("a stack of {number} items"), plain(&input(&[]), 1, &[], 0, &stack), [1, 0, number]));
        let proofs = [
            &long[..],
            &long,
            &[1],
            &long,
            &[6, 8],
            &[8; 8],
            &[32],
            &[1; 32],
            &[32],
            &[2; 32],
            &long,
            &long,
            &body(number.max(80)),
            &long,
            &long,
        ]
        .concat();
        let name = format!("proofs, items and a pegin stack of {number} bytes");
        all.push((name, plain(&input(&[]), 1, &[0; 4], 1, &proofs), [1, 1, 7]));
    }
    for over in [0, 1] {
        // 4 + 1 + 1 + 32 + 4 + 5 before the script, 4 + 1 + 4 behind it
        let script = body(LIMIT - 56 + over);
        all.push((format!("{} bytes", LIMIT + over), plain(&input(&script), 1, &[], 0, &[]), [1, 0, 0]));
    }
    all
}

/// A length and so many bytes; the last is no zero, so that a length one short shows.
fn body(length: usize) -> Vec<u8> {
    let mut bytes = Vec::new();
    put_compact(&mut bytes, length as u64);
    bytes.resize(bytes.len() + length, 7);
    bytes
}

/// A plain input with this script, its length before it; none is an empty one.
pub fn input(script: &[u8]) -> Vec<u8> {
    let script = if script.is_empty() { &[0] } else { script };
    [&[0; 36][..], script, &[0xff; 4]].concat()
}

fn output(script: &[u8]) -> Vec<u8> {
    [&[0, 0, 0][..], script].concat()
}

/// Version 2, flag 1 if there is a witness, and locktime 0.
pub fn plain(inputs: &[u8], input_count: usize, outputs: &[u8], output_count: usize, witness: &[u8]) -> Vec<u8> {
    let mut bytes = vec![2, 0, 0, 0, u8::from(!witness.is_empty())];
    put_compact(&mut bytes, input_count as u64);
    bytes.extend_from_slice(inputs);
    put_compact(&mut bytes, output_count as u64);
    bytes.extend_from_slice(outputs);
    bytes.extend_from_slice(&[0; 4]);
    bytes.extend_from_slice(witness);
    bytes
}
