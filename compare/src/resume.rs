//! A fast reader that can be fed in any pieces: one plain state with a stage, no allocation.
//!
//! The state knows the field it stands in and how many of its bytes are still missing. A field that lies whole
//! in the piece is loaded at once; one that is cut is gathered. When a field ends, its numbers enter the tables
//! and the next field begins, which is where the limit is judged: before any of its bytes is there.

use crate::paper::*;

/// A count or a length, by what it counts.
#[derive(Clone, Copy, PartialEq, Eq, Debug)]
enum Compact {
    Inputs,
    Outputs,
    ScriptItems,
    PeginItems,
    Script,
    OutputScript,
    AmountProof,
    KeysProof,
    Item,
    SurjectionProof,
    RangeProof,
}

/// Which of the three values.
#[derive(Clone, Copy, PartialEq, Eq, Debug)]
enum Value {
    Amount,
    Keys,
    Output,
}

#[derive(Clone, Copy, PartialEq, Eq, Debug)]
enum Stage {
    Version,
    Flag,
    /// The first byte of a count or length, then its further bytes, then a length's body.
    First(Compact),
    Further(Compact),
    Body(Compact),
    Txid,
    Vout,
    Sequence,
    BlindingNonce,
    Entropy,
    ValuePrefix(Value),
    Explicit(Value),
    Commitment(Value),
    AssetPrefix,
    Asset,
    NoncePrefix,
    Nonce,
    Locktime,
    Ended,
}

/// The whole state of a reading.
#[derive(Clone, Copy, PartialEq, Eq, Debug)]
pub struct Reading {
    sizes: [usize; 3],
    stage: Stage,
    /// Bytes that the present field still wants. Above 0 unless the reading has ended.
    missing: usize,
    /// The number gathered so far, little-endian, and how many of its bytes.
    gathered: u64,
    bytes_gathered: u32,
    /// Bytes taken in all pieces.
    at: usize,
    /// Where the present count or length starts.
    start: usize,
    /// The present input or output.
    record: usize,
    /// Items still to come in the present stack, and whether it is the pegin stack.
    stack_left: u64,
    in_pegin: bool,
    /// The present input's flags and whether its amount is null.
    flags: u32,
    amount_is_null: bool,
    issuance: usize,
    /// Whether some witness isn't empty.
    witnessed: bool,
    version: u32,
    flag: u32,
    inputs: usize,
    outputs: usize,
    items: usize,
    locktime: u32,
    answer: usize,
    place: usize,
}

impl Reading {
    /// A fresh start sets every table to 0.
    pub fn fresh(lent: &mut Lent) -> Reading {
        lent.zero();
        Reading {
            sizes: lent.sizes(),
            stage: Stage::Version,
            missing: 4,
            gathered: 0,
            bytes_gathered: 0,
            at: 0,
            start: 0,
            record: 0,
            stack_left: 0,
            in_pegin: false,
            flags: 0,
            amount_is_null: false,
            issuance: 0,
            witnessed: false,
            version: 0,
            flag: 0,
            inputs: 0,
            outputs: 0,
            items: 0,
            locktime: 0,
            answer: MORE,
            place: 0,
        }
    }

    pub fn push_bytes(mut self, piece: &[u8], lent: &mut Lent) -> (Reading, Outcome) {
        if self.sizes != lent.sizes() {
            return (self, Outcome::headless(10, 0, 0));
        }
        if self.stage == Stage::Ended {
            return self.repeat(lent);
        }
        let taken = self.advance(piece, lent);
        let outcome = self.outcome(taken);
        if outcome.is_refused_reading() {
            lent.zero();
        }
        (self, outcome)
    }

    pub fn end(mut self, lent: &mut Lent) -> (Reading, Outcome) {
        if self.sizes != lent.sizes() {
            return (self, Outcome::headless(10, 0, 0));
        }
        if self.stage != Stage::Ended {
            self.refuse(1, self.at);
        }
        self.repeat(lent)
    }

    /// An ended reading takes no more; a refused one zeroes the tables again.
    fn repeat(self, lent: &mut Lent) -> (Reading, Outcome) {
        if self.answer != FINISHED {
            lent.zero();
        }
        (self, self.outcome(0))
    }

    fn outcome(&self, taken: usize) -> Outcome {
        let mut outcome = Outcome::headless(self.answer, self.place, taken);
        if self.answer == FINISHED {
            let counts = [self.inputs as u32, self.outputs as u32, self.items as u32];
            outcome.head = [self.version, self.flag, counts[0], counts[1], counts[2], self.locktime, self.at as u32];
        }
        outcome
    }

    /// Takes what the reading wants of the piece; how many bytes that was.
    fn advance(&mut self, piece: &[u8], lent: &mut Lent) -> usize {
        let mut rest = piece;
        while self.stage != Stage::Ended {
            if self.missing > rest.len() {
                self.gather(rest);
                return piece.len();
            }
            let (field, behind) = rest.split_at(self.missing);
            self.gather(field);
            rest = behind;
            self.field_ended(lent);
        }
        piece.len() - rest.len()
    }

    /// Takes bytes of the present field, its number among them if it has one.
    #[inline]
    fn gather(&mut self, bytes: &[u8]) {
        self.at += bytes.len();
        self.missing -= bytes.len();
        if self.is_skipped() {
            return;
        }
        if self.bytes_gathered == 0 && self.missing == 0 {
            self.gathered = load(bytes);
            return;
        }
        for &byte in bytes {
            self.gathered |= (byte as u64) << (8 * self.bytes_gathered);
            self.bytes_gathered += 1;
        }
    }

    fn is_skipped(&self) -> bool {
        use Stage::*;
        matches!(self.stage, Txid | BlindingNonce | Entropy | Commitment(_) | Asset | Nonce | Body(_))
    }

    /// The present field's last byte is taken: its numbers enter, and the next field begins.
    #[inline]
    fn field_ended(&mut self, lent: &mut Lent) {
        let number = self.gathered;
        self.gathered = 0;
        self.bytes_gathered = 0;
        match self.stage {
            Stage::Version => {
                self.version = number as u32;
                self.begin(Stage::Flag, 1);
            }
            Stage::Flag => {
                self.flag = number as u32;
                self.begin_compact(Compact::Inputs);
            }
            Stage::First(compact) => self.first_ended(compact, number, lent),
            Stage::Further(compact) => self.further_ended(compact, number, lent),
            Stage::Body(compact) => self.body_ended(compact),
            Stage::Txid => {
                self.input(lent)[0] = (self.at - PART) as u32;
                self.begin(Stage::Vout, 4);
            }
            Stage::Vout => self.vout_ended(number as u32, lent),
            Stage::Sequence => {
                self.input(lent)[5] = number as u32;
                if self.flags & ISSUANCE != 0 {
                    self.issuance = self.at;
                    self.begin(Stage::BlindingNonce, PART);
                } else {
                    self.input_ended();
                }
            }
            Stage::BlindingNonce => {
                self.input(lent)[6] = self.issuance as u32;
                self.begin(Stage::Entropy, PART);
            }
            Stage::Entropy => self.begin(Stage::ValuePrefix(Value::Amount), 1),
            Stage::ValuePrefix(value) => self.value_prefix_ended(value, number as u32, lent),
            Stage::Explicit(value) => {
                let amount = number.swap_bytes();
                let halves = self.halves(value, lent);
                halves[0] = (amount >> 32) as u32;
                halves[1] = amount as u32;
                self.value_ended(value);
            }
            Stage::Commitment(value) => self.value_ended(value),
            Stage::AssetPrefix => {
                if !matches!(number, 0 | 1 | 10 | 11) {
                    return self.refuse(5, self.at - 1);
                }
                let position = (self.at - 1) as u32;
                let record = self.output(lent);
                record[0] = number as u32;
                record[1] = position;
                match number {
                    0 => self.begin(Stage::ValuePrefix(Value::Output), 1),
                    _ => self.begin(Stage::Asset, PART),
                }
            }
            Stage::Asset => self.begin(Stage::ValuePrefix(Value::Output), 1),
            Stage::NoncePrefix => {
                if number > 3 {
                    return self.refuse(5, self.at - 1);
                }
                let position = (self.at - 1) as u32;
                let record = self.output(lent);
                record[6] = number as u32;
                record[7] = position;
                match number {
                    0 => self.begin_compact(Compact::OutputScript),
                    _ => self.begin(Stage::Nonce, PART),
                }
            }
            Stage::Nonce => self.begin_compact(Compact::OutputScript),
            Stage::Locktime => self.locktime_ended(number as u32),
            Stage::Ended => unreachable!("an ended reading has no field"),
        }
    }

    // --- fields of an input

    fn vout_ended(&mut self, raw: u32, lent: &mut Lent) {
        let all_ones = raw == ALL_ONES;
        self.flags = if all_ones { 0 } else { raw >> 30 };
        let flags = self.flags;
        let record = self.input(lent);
        record[1] = if all_ones { raw } else { raw << 2 >> 2 };
        record[2] = flags;
        self.begin_compact(Compact::Script);
    }

    fn input_ended(&mut self) {
        self.record += 1;
        if self.record < self.inputs {
            self.begin(Stage::Txid, PART);
        } else {
            self.begin_compact(Compact::Outputs);
        }
    }

    // --- values

    fn value_prefix_ended(&mut self, value: Value, prefix: u32, lent: &mut Lent) {
        if !matches!(prefix, 0 | 1 | 8 | 9) {
            return self.refuse(5, self.at - 1);
        }
        match value {
            Value::Amount => {
                self.input(lent)[7] = prefix;
                self.amount_is_null = prefix == 0;
            }
            Value::Keys if prefix == 0 && self.amount_is_null => return self.refuse(6, self.issuance),
            Value::Keys => self.input(lent)[10] = prefix,
            Value::Output => {
                let position = (self.at - 1) as u32;
                let record = self.output(lent);
                record[2] = prefix;
                record[3] = position;
            }
        }
        match prefix {
            0 => self.value_ended(value),
            1 => self.begin(Stage::Explicit(value), 8),
            _ => self.begin(Stage::Commitment(value), PART),
        }
    }

    fn halves<'a>(&self, value: Value, lent: &'a mut Lent) -> &'a mut [u32] {
        match value {
            Value::Amount => &mut self.input(lent)[8..10],
            Value::Keys => &mut self.input(lent)[11..13],
            Value::Output => &mut self.output(lent)[4..6],
        }
    }

    fn value_ended(&mut self, value: Value) {
        match value {
            Value::Amount => self.begin(Stage::ValuePrefix(Value::Keys), 1),
            Value::Keys => self.input_ended(),
            Value::Output => self.begin(Stage::NoncePrefix, 1),
        }
    }

    // --- counts and lengths

    fn first_ended(&mut self, compact: Compact, first: u64, lent: &mut Lent) {
        let width = match first {
            253 => 2,
            254 => 4,
            255 => 8,
            _ => return self.compact_ended(compact, first, lent),
        };
        if self.at + width > LIMIT {
            return self.refuse(2, self.start);
        }
        self.stage = Stage::Further(compact);
        self.missing = width;
    }

    fn further_ended(&mut self, compact: Compact, value: u64, lent: &mut Lent) {
        let least = match self.at - self.start {
            3 => LEAST_OF_2,
            5 => LEAST_OF_4,
            _ => LEAST_OF_8,
        };
        if value < least {
            return self.refuse(3, self.start);
        }
        self.compact_ended(compact, value, lent);
    }

    fn compact_ended(&mut self, compact: Compact, value: u64, lent: &mut Lent) {
        match compact {
            Compact::Inputs | Compact::Outputs | Compact::ScriptItems | Compact::PeginItems => {
                let left = match compact {
                    Compact::Inputs => self.sizes[INPUTS] / INPUT,
                    Compact::Outputs => self.sizes[OUTPUTS] / OUTPUT,
                    _ => self.sizes[ITEMS] / ITEM - self.items,
                };
                if value > left as u64 {
                    return self.refuse(4, self.start);
                }
                self.count_ended(compact, value, lent);
            }
            _ => self.length_ended(compact, value, lent),
        }
    }

    fn count_ended(&mut self, compact: Compact, count: u64, lent: &mut Lent) {
        self.record = if matches!(compact, Compact::Inputs | Compact::Outputs) { 0 } else { self.record };
        match compact {
            Compact::Inputs => {
                self.inputs = count as usize;
                if count == 0 {
                    self.begin_compact(Compact::Outputs);
                } else {
                    self.begin(Stage::Txid, PART);
                }
            }
            Compact::Outputs => {
                self.outputs = count as usize;
                if count == 0 {
                    self.begin(Stage::Locktime, 4);
                } else {
                    self.begin(Stage::AssetPrefix, 1);
                }
            }
            _ => {
                let index = self.items as u32;
                let record = self.input(lent);
                if compact == Compact::ScriptItems {
                    record[17] = index;
                    record[18] = count as u32;
                } else {
                    record[19] = count as u32;
                }
                self.in_pegin = compact == Compact::PeginItems;
                self.stack_left = count;
                self.witnessed |= count > 0;
                self.next_item();
            }
        }
    }

    fn length_ended(&mut self, compact: Compact, length: u64, lent: &mut Lent) {
        if length > (LIMIT - self.at) as u64 {
            return self.refuse(2, self.start);
        }
        let entered = [self.at as u32, length as u32];
        let numbers = match compact {
            Compact::Script => &mut self.input(lent)[3..5],
            Compact::AmountProof => &mut self.input(lent)[13..15],
            Compact::KeysProof => &mut self.input(lent)[15..17],
            Compact::OutputScript => &mut self.output(lent)[8..10],
            Compact::SurjectionProof => &mut self.output(lent)[10..12],
            Compact::RangeProof => &mut self.output(lent)[12..14],
            _ => &mut lent.items[self.items * ITEM..][..ITEM],
        };
        numbers.copy_from_slice(&entered);
        self.witnessed |= length > 0 && !matches!(compact, Compact::Script | Compact::OutputScript);
        self.stage = Stage::Body(compact);
        self.missing = length as usize;
    }

    fn body_ended(&mut self, compact: Compact) {
        match compact {
            Compact::Script => self.begin(Stage::Sequence, 4),
            Compact::OutputScript => {
                self.record += 1;
                if self.record < self.outputs {
                    self.begin(Stage::AssetPrefix, 1);
                } else {
                    self.begin(Stage::Locktime, 4);
                }
            }
            Compact::AmountProof => self.begin_compact(Compact::KeysProof),
            Compact::KeysProof => self.begin_compact(Compact::ScriptItems),
            Compact::SurjectionProof => self.begin_compact(Compact::RangeProof),
            Compact::RangeProof => {
                self.record += 1;
                self.next_output_witness();
            }
            _ => {
                self.items += 1;
                self.stack_left -= 1;
                self.next_item();
            }
        }
    }

    // --- witnesses

    fn locktime_ended(&mut self, locktime: u32) {
        self.locktime = locktime;
        self.record = 0;
        match self.flag {
            0 => self.finish(),
            1 => self.next_input_witness(),
            _ => self.refuse(7, 4),
        }
    }

    fn next_input_witness(&mut self) {
        if self.record < self.inputs {
            self.begin_compact(Compact::AmountProof);
        } else {
            self.record = 0;
            self.next_output_witness();
        }
    }

    /// The next item of the stack, or what follows the stack.
    fn next_item(&mut self) {
        if self.stack_left > 0 {
            self.begin_compact(Compact::Item);
        } else if !self.in_pegin {
            self.begin_compact(Compact::PeginItems);
        } else {
            self.record += 1;
            self.next_input_witness();
        }
    }

    fn next_output_witness(&mut self) {
        if self.record < self.outputs {
            self.begin_compact(Compact::SurjectionProof);
        } else if self.witnessed {
            self.finish();
        } else {
            self.refuse(8, 4);
        }
    }

    // --- beginning fields and ending the reading

    /// Begins a field of a fixed width, unless it would end past the limit.
    #[inline]
    fn begin(&mut self, stage: Stage, width: usize) {
        if self.at + width > LIMIT {
            return self.refuse(2, self.at);
        }
        self.stage = stage;
        self.missing = width;
    }

    fn begin_compact(&mut self, compact: Compact) {
        self.start = self.at;
        self.begin(Stage::First(compact), 1);
    }

    fn finish(&mut self) {
        self.stage = Stage::Ended;
        self.answer = FINISHED;
    }

    fn refuse(&mut self, number: usize, place: usize) {
        self.stage = Stage::Ended;
        self.answer = number;
        self.place = place;
    }

    #[inline]
    fn input<'a>(&self, lent: &'a mut Lent) -> &'a mut [u32] {
        &mut lent.inputs[self.record * INPUT..][..INPUT]
    }

    #[inline]
    fn output<'a>(&self, lent: &'a mut Lent) -> &'a mut [u32] {
        &mut lent.outputs[self.record * OUTPUT..][..OUTPUT]
    }
}

/// A little-endian number that lies whole in the piece.
#[inline]
fn load(bytes: &[u8]) -> u64 {
    match *bytes {
        [a] => a as u64,
        [a, b] => u16::from_le_bytes([a, b]) as u64,
        [a, b, c, d] => u32::from_le_bytes([a, b, c, d]) as u64,
        _ => u64::from_le_bytes(bytes.try_into().expect("8 bytes")),
    }
}
