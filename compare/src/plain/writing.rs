//! Document 01's writing, said as plainly as we can.

use crate::paper::*;
use crate::slips::Slip;

/// A refusal of the writer, with the words that tell its cause.
#[derive(Clone, Copy, PartialEq, Eq, Debug)]
pub struct Unwritten {
    pub number: usize,
    pub place: usize,
    pub cause: &'static str,
}

/// Every cause the writer can give, in the paper's order.
pub const CAUSES: &[&str] = &[
    "10 inputs exceed their table",
    "10 outputs exceed their table",
    "10 items exceed their table",
    "7 flag above 1",
    "13 input: flags not listed",
    "13 input: txid passes the source",
    "13 input: script passes the source",
    "13 input: issuance numbers without the flag",
    "13 input: amount prefix not listed",
    "13 input: keys prefix not listed",
    "13 input: amount halves without prefix 1",
    "13 input: keys halves without prefix 1",
    "13 input: issuance passes the source",
    "13 input: witness numbers with flag 0",
    "13 input: amount proof passes the source",
    "13 input: keys proof passes the source",
    "13 input: first index is not the sum",
    "12 vout at or above 2^30",
    "12 vout 0xffffffff with a flag",
    "12 vout 0x3fffffff with both flags",
    "6 null issuance",
    "13 output: asset prefix not listed",
    "13 output: value prefix not listed",
    "13 output: nonce prefix not listed",
    "13 output: asset passes the source",
    "13 output: commitment passes the source",
    "13 output: nonce passes the source",
    "13 output: halves without prefix 1",
    "13 output: script passes the source",
    "13 output: witness numbers with flag 0",
    "13 output: surjection proof passes the source",
    "13 output: range proof passes the source",
    "13 item: numbers with flag 0",
    "13 item: passes the source",
    "13 items don't add up",
    "8 all witnesses empty",
    "2 too long",
    "14 output too short",
];

/// Asked for alone, the length comes without 14.
pub fn written_length(order: &Order, slip: Slip) -> Written {
    let scribe = Scribe { order: *order, slip };
    match scribe.judge() {
        Ok(length) => Written { answer: 0, place: 0, length: length as usize },
        Err(refusal) => scribe.refused(refusal),
    }
}

/// Writes into the output, or leaves it untouched.
pub fn write(order: &Order, output: &mut [u8], slip: Slip) -> (Written, Option<&'static str>) {
    let scribe = Scribe { order: *order, slip };
    let room = output.len() as u64;
    let short = Unwritten { number: 14, place: 0, cause: "14 output too short" };
    let judged = match scribe.judge() {
        Err(refusal) if slip.is(Slip::ShortBeforeLong) && refusal.number == 2 && scribe.length() > room => Err(short),
        Ok(length) if length > room + slip.pick(Slip::OutputMayBeOneShort, 1, 0) => Err(short),
        judged => judged,
    };
    if slip.is(Slip::WrittenBeforeJudged) && judged.is_err() && !output.is_empty() {
        output[0] = order.head[0] as u8;
    }
    match judged {
        Ok(length) => {
            let bytes = scribe.layout();
            assert!(bytes.len() as u64 == length || slip != Slip::None, "the length is the sum of the widths");
            let kept = bytes.len().min(output.len());
            output[..kept].copy_from_slice(&bytes[..kept]);
            if slip.is(Slip::TailZeroed) {
                output[kept..].fill(0);
            }
            (Written { answer: 0, place: 0, length: length as usize }, None)
        }
        Err(refusal) => (scribe.refused(refusal), Some(refusal.cause)),
    }
}

/// An output is a fee exactly if its script has length 0.
pub fn is_fee(output: &[u32; OUTPUT], slip: Slip) -> bool {
    output[slip.pick(Slip::FeeByPosition, 8, 9)] == 0
}

struct Scribe<'a> {
    order: Order<'a>,
    slip: Slip,
}

type Breach = Option<&'static str>;

impl Scribe<'_> {
    fn flag(&self) -> u32 {
        self.slip.pick(Slip::FlagCutToByte, self.order.head[1] & 0xff, self.order.head[1])
    }

    /// Records up to their count. Those behind aren't read.
    fn records(&self, table: usize) -> impl Iterator<Item = &[u32]> {
        let numbers = match table {
            INPUTS => self.order.inputs,
            OUTPUTS => self.order.outputs,
            _ => self.order.items,
        };
        numbers.chunks_exact(WIDTHS[table]).take(self.slip.records_read(self.order.head[2 + table] as usize))
    }

    /// All refusals but 14, in the paper's order; the written length.
    fn judge(&self) -> Result<u64, Unwritten> {
        if self.slip.is(Slip::FlagBeforeCounts) {
            self.judge_flag()?;
        }
        self.judge_counts()?;
        self.judge_flag()?;
        if self.slip.is(Slip::EmptyBeforeRecords) {
            self.judge_empty()?;
        }
        if self.slip.is(Slip::SumBeforeRecords) {
            self.judge_sum()?;
        }
        self.judge_inputs()?;
        for (place, record) in self.records(OUTPUTS).enumerate() {
            thirteen(self.output_breach(record), place + self.slip.pick(Slip::RecordsFromOne, 1, 0))?;
        }
        for (place, record) in self.records(ITEMS).enumerate() {
            thirteen(self.item_breach(record), place + self.slip.pick(Slip::RecordsFromOne, 1, 0))?;
        }
        self.judge_sum()?;
        if self.slip.is(Slip::LongBeforeEmpty) {
            self.judge_length()?;
        }
        self.judge_empty()?;
        self.judge_length()
    }

    fn judge_counts(&self) -> Result<(), Unwritten> {
        let causes = ["10 inputs exceed their table", "10 outputs exceed their table", "10 items exceed their table"];
        let sizes = [self.order.inputs.len(), self.order.outputs.len(), self.order.items.len()];
        for table in 0..3 {
            let records = self.slip.records_held(sizes[table], WIDTHS[table]);
            if self.order.head[2 + table] as usize > records {
                return refuse(10, 0, causes[table]);
            }
        }
        Ok(())
    }

    fn judge_flag(&self) -> Result<(), Unwritten> {
        if self.flag() > 1 {
            return refuse(7, 4, "7 flag above 1");
        }
        Ok(())
    }

    /// Record after record; within one, 13 before 12 before 6.
    fn judge_inputs(&self) -> Result<(), Unwritten> {
        if self.slip.is(Slip::AllThirteensFirst) {
            let mut sum = 0;
            for (place, record) in self.records(INPUTS).enumerate() {
                thirteen(self.input_breach(record, sum), place)?;
                sum += items_of(record);
            }
        }
        let mut sum = 0;
        for (place, record) in self.records(INPUTS).enumerate() {
            let place = place + self.slip.pick(Slip::RecordsFromOne, 1, 0);
            if self.slip.is(Slip::TwelveBeforeThirteen) {
                self.judge_outpoint(record, place)?;
            }
            thirteen(self.input_breach(record, sum), place)?;
            if self.slip.is(Slip::SixBeforeTwelve) {
                self.judge_issuance(record, place)?;
            }
            self.judge_outpoint(record, place)?;
            self.judge_issuance(record, place)?;
            sum = self.slip.sum_of_items(sum, items_of(record));
        }
        Ok(())
    }

    /// What of an input record breaks the tables' rules; `sum` counts the items of earlier records.
    fn input_breach(&self, record: &[u32], sum: u64) -> Breach {
        let flags = record[2];
        if flags > self.slip.pick(Slip::InputFlagsUnjudged, u32::MAX, 3) {
            return Some("13 input: flags not listed");
        }
        if !self.lies(record[0], PART as u64) {
            return Some("13 input: txid passes the source");
        }
        if !self.body_lies(record[3], record[4]) {
            return Some("13 input: script passes the source");
        }
        if flags & ISSUANCE != 0 {
            if let Some(cause) = self.issuance_breach(record) {
                return Some(cause);
            }
        } else if !all_zero(&record[6..13]) && !self.slip.is(Slip::AbsentIssuanceUnjudged) {
            return Some("13 input: issuance numbers without the flag");
        }
        self.input_witness_breach(record, sum)
    }

    fn issuance_breach(&self, record: &[u32]) -> Breach {
        let (amount, keys) = (record[7], record[10]);
        let amount_width = match value_width(amount) {
            Some(amount_width) => amount_width,
            None => return Some("13 input: amount prefix not listed"),
        };
        let keys_width = match value_width(keys) {
            Some(keys_width) => keys_width,
            None => return Some("13 input: keys prefix not listed"),
        };
        if amount != 1 && !all_zero(&record[8..10]) && !self.slip.is(Slip::HalvesUnjudged) {
            return Some("13 input: amount halves without prefix 1");
        }
        if keys != 1 && !all_zero(&record[11..13]) && !self.slip.is(Slip::HalvesUnjudged) {
            return Some("13 input: keys halves without prefix 1");
        }
        // The whole field must lie in the source, also where only the halves are used.
        if !self.lies(record[6], self.slip.pick(Slip::IssuanceHeadOnly, 64, 64 + amount_width + keys_width)) {
            return Some("13 input: issuance passes the source");
        }
        None
    }

    fn input_witness_breach(&self, record: &[u32], sum: u64) -> Breach {
        if self.flag() == 0 {
            let judged = !self.slip.is(Slip::WitnessUnjudgedWithoutFlag);
            return (judged && !all_zero(&record[13..20])).then_some("13 input: witness numbers with flag 0");
        }
        if !self.body_lies(record[13], record[14]) {
            return Some("13 input: amount proof passes the source");
        }
        if !self.body_lies(record[15], record[16]) {
            return Some("13 input: keys proof passes the source");
        }
        if record[17] as u64 != sum && !self.slip.first_index_excused(items_of(record)) {
            return Some("13 input: first index is not the sum");
        }
        None
    }

    fn judge_outpoint(&self, record: &[u32], place: usize) -> Result<(), Unwritten> {
        let (vout, flags) = (record[1], record[2]);
        if vout >= VOUT_END && vout != ALL_ONES && !self.slip.is(Slip::HighVoutAccepted) {
            return refuse(12, place, "12 vout at or above 2^30");
        }
        if vout == ALL_ONES && flags != 0 && !self.slip.is(Slip::AllOnesWithFlagAccepted) {
            return refuse(12, place, "12 vout 0xffffffff with a flag");
        }
        if vout == VOUT_END - 1 && flags == PEGIN | ISSUANCE && !self.slip.is(Slip::LastVoutWithBothAccepted) {
            return refuse(12, place, "12 vout 0x3fffffff with both flags");
        }
        Ok(())
    }

    fn judge_issuance(&self, record: &[u32], place: usize) -> Result<(), Unwritten> {
        let null = record[7] == 0 && record[10] == 0;
        if record[2] & ISSUANCE != 0 && null && !self.slip.is(Slip::NullIssuanceWritten) {
            return refuse(6, place, "6 null issuance");
        }
        Ok(())
    }

    fn output_breach(&self, record: &[u32]) -> Breach {
        let (asset, value, nonce) = (record[0], record[2], record[6]);
        if ![0, 1, 10, 11].contains(&asset) {
            return Some("13 output: asset prefix not listed");
        }
        if ![0, 1, 8, 9].contains(&value) {
            return Some("13 output: value prefix not listed");
        }
        if ![0, 1, 2, 3].contains(&nonce) && !self.slip.is(Slip::NoncePrefixUnjudged) {
            return Some("13 output: nonce prefix not listed");
        }
        let null_read = self.slip.is(Slip::NullPositionsRead);
        if (asset != 0 || null_read) && !self.part_lies(record[1]) {
            return Some("13 output: asset passes the source");
        }
        if (value > 1 || value == 1 && self.slip.is(Slip::ExplicitPositionRead)) && !self.part_lies(record[3]) {
            return Some("13 output: commitment passes the source");
        }
        if (nonce != 0 || null_read) && !self.part_lies(record[7]) {
            return Some("13 output: nonce passes the source");
        }
        if value != 1 && !all_zero(&record[4..6]) && !self.slip.is(Slip::HalvesUnjudged) {
            return Some("13 output: halves without prefix 1");
        }
        if !self.body_lies(record[8], record[9]) {
            return Some("13 output: script passes the source");
        }
        if self.flag() == 0 {
            let judged = !self.slip.is(Slip::WitnessUnjudgedWithoutFlag);
            return (judged && !all_zero(&record[10..14])).then_some("13 output: witness numbers with flag 0");
        }
        if !self.body_lies(record[10], record[11]) {
            return Some("13 output: surjection proof passes the source");
        }
        if !self.body_lies(record[12], record[13]) {
            return Some("13 output: range proof passes the source");
        }
        None
    }

    fn item_breach(&self, record: &[u32]) -> Breach {
        if self.flag() == 0 && !all_zero(record) && !self.slip.is(Slip::ItemsUnjudgedWithoutFlag) {
            return Some("13 item: numbers with flag 0");
        }
        if !self.body_lies(record[0], record[1]) {
            return Some("13 item: passes the source");
        }
        None
    }

    fn judge_sum(&self) -> Result<(), Unwritten> {
        let sum = self.records(INPUTS).fold(0, |sum, record| self.slip.sum_of_items(sum, items_of(record)));
        if sum != self.order.head[4] as u64 {
            let place = self.slip.pick(Slip::SumPlacedAtItems, self.order.head[4], self.order.head[2]);
            return refuse(13, place as usize, "13 items don't add up");
        }
        Ok(())
    }

    fn judge_empty(&self) -> Result<(), Unwritten> {
        let inputs_empty = self.records(INPUTS).all(|r| r[14] == 0 && r[16] == 0 && items_of(r) == 0);
        let outputs_empty = self.records(OUTPUTS).all(|r| r[11] == 0 && r[13] == 0);
        let empty = inputs_empty && (outputs_empty || self.slip.is(Slip::WriterEmptinessOfInputsOnly));
        if self.flag() == 1 && empty {
            return refuse(8, 4, "8 all witnesses empty");
        }
        Ok(())
    }

    fn judge_length(&self) -> Result<u64, Unwritten> {
        let length = self.length();
        if length > LIMIT as u64 + self.slip.pick(Slip::WriterLimitOnePast, 1, 0) {
            return refuse(2, 0, "2 too long");
        }
        Ok(length)
    }

    /// Whether a position plus length stays within the source. Both are u32, so u64 doesn't wrap.
    fn lies(&self, position: u32, length: u64) -> bool {
        self.slip.end_of(position, length) <= self.order.source.len() as u64 + self.slip.pick(Slip::SourceOnePast, 1, 0)
    }

    /// A body with its length in the table. Its position is read even if the length is 0.
    fn body_lies(&self, position: u32, length: u32) -> bool {
        length == 0 && self.slip.is(Slip::EmptyBodyPositionUnread) || self.lies(position, length as u64)
    }

    /// The 32 bytes after a prefix.
    fn part_lies(&self, position: u32) -> bool {
        self.lies(position, 1 + PART as u64)
    }

    // --- the written length: the sum of the layout's field widths

    fn length(&self) -> u64 {
        let mut length = 4 + 1 + count_width(self.order.head[2]) + count_width(self.order.head[3]) + 4;
        for record in self.records(INPUTS) {
            length += 32 + 4 + body_width(record[4]) + 4;
            if record[2] & ISSUANCE != 0 {
                length += 64 + value_width(record[7]).unwrap_or(1) + value_width(record[10]).unwrap_or(1);
            }
        }
        for record in self.records(OUTPUTS) {
            length += part_width(record[0]) + value_width(record[2]).unwrap_or(1) + part_width(record[6]);
            length += body_width(record[9]);
        }
        if self.flag() == 1 {
            for record in self.records(INPUTS) {
                length += body_width(record[14]) + body_width(record[16]);
                length += count_width(record[18]) + count_width(record[19]);
            }
            length += self.records(ITEMS).map(|record| body_width(record[1])).sum::<u64>();
            length += self.records(OUTPUTS).map(|record| body_width(record[11]) + body_width(record[13])).sum::<u64>();
        }
        length
    }

    // --- the bytes

    fn layout(&self) -> Vec<u8> {
        let head = self.order.head;
        let mut to = Vec::new();
        to.extend(head[0].to_le_bytes());
        to.push(self.flag() as u8);
        put_count(&mut to, head[2], self.slip);
        for record in self.records(INPUTS) {
            self.put_input(&mut to, record);
        }
        put_count(&mut to, head[3], self.slip);
        for record in self.records(OUTPUTS) {
            self.put_output(&mut to, record);
        }
        to.extend(head[5].to_le_bytes());
        if self.flag() == 1 {
            self.put_witnesses(&mut to);
        }
        to
    }

    fn put_input(&self, to: &mut Vec<u8>, record: &[u32]) {
        self.put_bytes(to, record[0] as usize, PART);
        let raw = if record[1] == ALL_ONES || self.slip.is(Slip::FlagsNotPutBack) {
            record[1]
        } else {
            record[1] | (record[2] & PEGIN) << 30 | (record[2] & ISSUANCE) >> 1 << 31
        };
        to.extend(self.slip.pick(Slip::VoutBigEndian, raw.to_be_bytes(), raw.to_le_bytes()));
        self.put_body(to, record[3], record[4]);
        to.extend(record[5].to_le_bytes());
        if record[2] & ISSUANCE != 0 {
            let start = record[6] as usize;
            self.put_bytes(to, start, 64);
            let amount = start + 64;
            let width = value_width(record[7]).unwrap_or(1) as usize;
            let keys = amount + self.slip.pick(Slip::KeysAlwaysAfter33, 33, width);
            if self.slip.is(Slip::AmountFromSource) && record[7] == 1 {
                self.put_bytes(to, amount, 9);
            } else {
                self.put_value(to, &record[7..10], amount);
            }
            self.put_value(to, &record[10..13], keys);
        }
    }

    fn put_output(&self, to: &mut Vec<u8>, record: &[u32]) {
        self.put_part(to, record[0], record[1]);
        self.put_value(to, &[record[2], record[4], record[5]], record[3] as usize);
        self.put_part(to, record[6], record[7]);
        self.put_body(to, record[8], record[9]);
    }

    fn put_witnesses(&self, to: &mut Vec<u8>) {
        let mut items = self.records(ITEMS);
        for record in self.records(INPUTS) {
            self.put_body(to, record[13], record[14]);
            self.put_body(to, record[15], record[16]);
            for count in &record[18..20] {
                put_count(to, *count, self.slip);
                for item in items.by_ref().take(*count as usize) {
                    self.put_body(to, item[0], item[1]);
                }
            }
        }
        for record in self.records(OUTPUTS) {
            self.put_body(to, record[10], record[11]);
            self.put_body(to, record[12], record[13]);
        }
    }

    /// An asset or a nonce: the record's prefix, and the 32 bytes behind its position unless it is null.
    fn put_part(&self, to: &mut Vec<u8>, prefix: u32, position: u32) {
        self.put_prefix(to, prefix, position as usize);
        if prefix != 0 {
            self.put_bytes(to, position as usize + self.slip.pick(Slip::BodyAtPrefix, 0, 1), PART);
        }
    }

    /// A value: prefix, high and low, and the position of its prefix in the source.
    fn put_value(&self, to: &mut Vec<u8>, value: &[u32], position: usize) {
        match value[0] {
            0 => to.push(0),
            1 => {
                to.push(1);
                let amount = (value[1] as u64) << 32 | value[2] as u64;
                to.extend(self.slip.pick(Slip::AmountWrittenLittle, amount.to_le_bytes(), amount.to_be_bytes()));
            }
            prefix => {
                self.put_prefix(to, prefix, position);
                self.put_bytes(to, position + self.slip.pick(Slip::BodyAtPrefix, 0, 1), PART);
            }
        }
    }

    /// The record's prefix decides, not the source's.
    fn put_prefix(&self, to: &mut Vec<u8>, prefix: u32, position: usize) {
        if self.slip.is(Slip::PrefixFromSource) && prefix != 0 {
            self.put_bytes(to, position, 1);
        } else {
            to.push(prefix as u8);
        }
    }

    fn put_body(&self, to: &mut Vec<u8>, position: u32, length: u32) {
        put_count(to, length, self.slip);
        self.put_bytes(to, position as usize, length as usize);
    }

    /// Bytes of the source. The judgement made sure of them, unless a slip let them through: then 0 stands in.
    fn put_bytes(&self, to: &mut Vec<u8>, position: usize, length: usize) {
        let source = self.order.source;
        let start = position.min(source.len());
        let end = (position + length).min(source.len());
        to.extend_from_slice(&source[start..end]);
        to.resize(to.len() + length - (end - start), 0);
    }

    fn refused(&self, refusal: Unwritten) -> Written {
        let length = self.slip.pick(Slip::LengthAfterRefusal, 11, 0);
        Written { answer: refusal.number, place: refusal.place, length }
    }
}

fn refuse<T>(number: usize, place: usize, cause: &'static str) -> Result<T, Unwritten> {
    Err(Unwritten { number, place, cause })
}

fn thirteen(breach: Breach, place: usize) -> Result<(), Unwritten> {
    match breach {
        Some(cause) => refuse(13, place, cause),
        None => Ok(()),
    }
}

fn all_zero(numbers: &[u32]) -> bool {
    numbers.iter().all(|&number| number == 0)
}

/// Script items and pegin items of an input record. As u64: two u32 may pass 2^32.
fn items_of(record: &[u32]) -> u64 {
    record[18] as u64 + record[19] as u64
}

fn count_width(count: u32) -> u64 {
    match count {
        0..=252 => 1,
        253..=65_535 => 3,
        _ => 5,
    }
}

fn body_width(length: u32) -> u64 {
    count_width(length) + length as u64
}

/// The bytes of a value with this prefix, or none if it isn't listed.
pub fn value_width(prefix: u32) -> Option<u64> {
    match prefix {
        0 => Some(1),
        1 => Some(9),
        8 | 9 => Some(33),
        _ => None,
    }
}

fn part_width(prefix: u32) -> u64 {
    if prefix == 0 {
        1
    } else {
        33
    }
}

fn put_count(to: &mut Vec<u8>, count: u32, slip: Slip) {
    match count {
        0..=252 => to.push(count as u8),
        253..=65_535 => {
            to.push(253);
            let count = count as u16;
            to.extend(slip.pick(Slip::CountBigEndian, count.to_be_bytes(), count.to_le_bytes()));
        }
        _ => {
            to.push(254);
            to.extend(count.to_le_bytes());
        }
    }
}
