//! Seeded random transactions with every feature of the layout, and the map of their fields.

use crate::log::Field;
use crate::paper::*;

/// A small random generator (splitmix64): the same seed gives the same inputs everywhere.
#[derive(Clone)]
pub struct Random {
    state: u64,
}

impl Random {
    pub fn seeded(seed: u64) -> Random {
        Random { state: seed }
    }

    pub fn draw(&mut self) -> u64 {
        self.state = self.state.wrapping_add(0x9e37_79b9_7f4a_7c15);
        let mut z = self.state;
        z = (z ^ (z >> 30)).wrapping_mul(0xbf58_476d_1ce4_e5b9);
        z = (z ^ (z >> 27)).wrapping_mul(0x94d0_49bb_1331_11eb);
        z ^ (z >> 31)
    }

    /// A number below `end`, which is above 0.
    pub fn below(&mut self, end: usize) -> usize {
        (((self.draw() >> 32) * end as u64) >> 32) as usize
    }

    /// True once in `times`.
    pub fn once_in(&mut self, times: usize) -> bool {
        self.below(times) == 0
    }

    pub fn choose<T: Copy>(&mut self, from: &[T]) -> T {
        from[self.below(from.len())]
    }
}

/// How the bytes of a field are to be understood.
#[derive(Clone, Copy, PartialEq, Eq, Debug)]
pub enum Kind {
    Fixed,
    Prefix,
    Count,
    Length,
    Body,
}

#[derive(Clone, Copy, Debug)]
pub struct Span {
    pub field: Field,
    pub kind: Kind,
    pub start: usize,
    pub width: usize,
}

/// A transaction's bytes, where its fields lie, and how many records it fills.
#[derive(Default)]
pub struct Made {
    pub bytes: Vec<u8>,
    pub spans: Vec<Span>,
    pub counts: [usize; 3],
}

impl Made {
    /// Makes another transaction in the memory of this one.
    pub fn again(&mut self, random: &mut Random) {
        self.bytes.clear();
        self.spans.clear();
        let mut maker = Maker { random, made: self };
        maker.transaction();
    }
}

struct Maker<'a> {
    random: &'a mut Random,
    made: &'a mut Made,
}

impl Maker<'_> {
    fn transaction(&mut self) {
        let flag = self.random.choose(&[0, 0, 1, 1, 1]);
        // With few exceptions witnesses are allowed to be full; then chance decides about each.
        let full = flag == 1 && !self.random.once_in(16);
        let inputs = self.count_of_records(400_000);
        let outputs = self.count_of_records(100_000);
        self.fixed(Field::Version, 4);
        self.put(Field::Flag, Kind::Fixed, &[flag]);
        self.count(Field::InputCount, inputs);
        for _ in 0..inputs {
            self.input();
        }
        self.count(Field::OutputCount, outputs);
        for _ in 0..outputs {
            self.output();
        }
        self.fixed(Field::Locktime, 4);
        self.made.counts = [inputs, outputs, 0];
        if flag == 1 {
            for _ in 0..inputs {
                self.input_witness(full);
            }
            for _ in 0..outputs {
                self.proof(Field::SurjectionProof, full);
                self.proof(Field::RangeProof, full);
            }
        }
    }

    /// Mostly few; now and then at the boundaries of the count's forms, the last of them once in `seldom`.
    fn count_of_records(&mut self, seldom: usize) -> usize {
        if self.random.once_in(3000) {
            return self.random.choose(&[252, 253, 254, 256, 257]);
        }
        if self.random.once_in(seldom) {
            return self.random.choose(&[65_535, 65_536]);
        }
        self.random.choose(&[0, 1, 1, 1, 1, 2, 2, 3])
    }

    fn input(&mut self) {
        self.fixed(Field::Txid, PART);
        let raw = self.raw_vout();
        self.put(Field::Vout, Kind::Fixed, &raw.to_le_bytes());
        self.body(Field::Script);
        self.fixed(Field::Sequence, 4);
        if raw != ALL_ONES && raw >> 31 == 1 {
            self.issuance();
        }
    }

    fn raw_vout(&mut self) -> u32 {
        let any = self.random.draw() as u32;
        self.random.choose(&[
            0,
            1,
            2,
            7,
            7,
            ALL_ONES,
            0xbfff_ffff,
            0x3fff_ffff,
            0x7fff_ffff,
            0x4000_0000,
            0x4000_0001,
            0x8000_0000,
            0x8000_0003,
            0xc000_0000,
            0xc000_0005,
            0xffff_fffe,
            0x3fff_fffe,
            any,
        ])
    }

    fn issuance(&mut self) {
        self.fixed(Field::BlindingNonce, PART);
        self.fixed(Field::Entropy, PART);
        let amount = self.value_prefix();
        // A null issuance is refused; let it stay rare.
        let keys =
            if amount == 0 && !self.random.once_in(4) { self.random.choose(&[1, 8, 9]) } else { self.value_prefix() };
        self.value(amount, [Field::AmountPrefix, Field::AmountExplicit, Field::AmountCommitment]);
        self.value(keys, [Field::KeysPrefix, Field::KeysExplicit, Field::KeysCommitment]);
    }

    fn output(&mut self) {
        let asset = self.random.choose(&[0, 1, 1, 10, 11]);
        self.put(Field::AssetPrefix, Kind::Prefix, &[asset]);
        if asset != 0 {
            self.fixed(Field::AssetPart, PART);
        }
        let value = self.value_prefix();
        self.value(value, [Field::ValuePrefix, Field::ValueExplicit, Field::ValueCommitment]);
        let nonce = self.random.choose(&[0, 0, 1, 2, 3]);
        self.put(Field::NoncePrefix, Kind::Prefix, &[nonce]);
        if nonce != 0 {
            self.fixed(Field::NoncePart, PART);
        }
        self.body(Field::OutputScript);
    }

    fn value_prefix(&mut self) -> u8 {
        self.random.choose(&[0, 1, 1, 1, 8, 9])
    }

    fn value(&mut self, prefix: u8, fields: [Field; 3]) {
        self.put(fields[0], Kind::Prefix, &[prefix]);
        match prefix {
            0 => {}
            1 => self.fixed(fields[1], 8),
            _ => self.fixed(fields[2], PART),
        }
    }

    fn input_witness(&mut self, full: bool) {
        self.proof(Field::AmountProof, full);
        self.proof(Field::KeysProof, full);
        self.stack(Field::ScriptCount, Field::ScriptItem, full);
        self.stack(Field::PeginCount, Field::PeginItem, full);
    }

    fn stack(&mut self, count_field: Field, item: Field, full: bool) {
        let mut count = if full { self.random.choose(&[0, 0, 0, 1, 1, 2, 3]) } else { 0 };
        if full && self.random.once_in(4000) {
            count = self.random.choose(&[252, 253, 254]);
        }
        if full && self.random.once_in(100_000) {
            count = self.random.choose(&[65_535, 65_536]);
        }
        self.count(count_field, count);
        self.made.counts[ITEMS] += count;
        for _ in 0..count {
            let length = if count > 300 || self.random.once_in(3) { 0 } else { self.body_length() };
            self.body_of(item, length);
        }
    }

    fn proof(&mut self, field: Field, full: bool) {
        let length = if full && self.random.once_in(2) { self.body_length() } else { 0 };
        self.body_of(field, length);
    }

    fn body(&mut self, field: Field) {
        let length = self.body_length();
        self.body_of(field, length);
    }

    fn body_length(&mut self) -> usize {
        if self.random.once_in(200) {
            return self.random.choose(&[252, 253, 254, 255, 256]);
        }
        if self.random.once_in(20_000) {
            return self.random.choose(&[65_535, 65_536, 65_537]);
        }
        self.random.choose(&[0, 0, 0, 1, 2, 3, 5, 11, 25])
    }

    fn body_of(&mut self, field: Field, length: usize) {
        self.compact(field, Kind::Length, length);
        let start = self.made.bytes.len();
        self.random_bytes(length);
        self.made.spans.push(Span { field, kind: Kind::Body, start, width: length });
    }

    fn count(&mut self, field: Field, count: usize) {
        self.compact(field, Kind::Count, count);
    }

    fn compact(&mut self, field: Field, kind: Kind, number: usize) {
        let start = self.made.bytes.len();
        put_compact(&mut self.made.bytes, number as u64);
        self.made.spans.push(Span { field, kind, start, width: self.made.bytes.len() - start });
    }

    fn fixed(&mut self, field: Field, width: usize) {
        let start = self.made.bytes.len();
        self.random_bytes(width);
        self.made.spans.push(Span { field, kind: Kind::Fixed, start, width });
    }

    fn put(&mut self, field: Field, kind: Kind, bytes: &[u8]) {
        let start = self.made.bytes.len();
        self.made.bytes.extend_from_slice(bytes);
        self.made.spans.push(Span { field, kind, start, width: bytes.len() });
    }

    fn random_bytes(&mut self, length: usize) {
        let bytes = &mut self.made.bytes;
        let end = bytes.len() + length;
        while bytes.len() < end {
            let eight = self.random.draw().to_le_bytes();
            let wanted = (end - bytes.len()).min(8);
            bytes.extend_from_slice(&eight[..wanted]);
        }
    }
}

/// A count or length in its shortest form.
pub fn put_compact(to: &mut Vec<u8>, number: u64) {
    let width = match number {
        0..=252 => 0,
        253..=65_535 => 2,
        65_536..=4_294_967_295 => 4,
        _ => 8,
    };
    put_compact_of_width(to, number, width);
}

/// A count or length with so many further bytes, shortest or not.
pub fn put_compact_of_width(to: &mut Vec<u8>, number: u64, width: usize) {
    match width {
        0 => return to.push(number as u8),
        2 => to.push(253),
        4 => to.push(254),
        _ => to.push(255),
    }
    to.extend_from_slice(&number.to_le_bytes()[..width]);
}
