//! Document 01, said as plainly as we can: the judge.
//!
//! The reading is defined over the whole list of bytes, field by field, with no state, stage or piece in it.
//! It yields a log: each table number with the count of bytes after which it enters, and how the reading
//! ends and after how many bytes. [`Feeding`] only cuts that log at the pieces.
//!
//! The word `slip` marks the hooks of [`crate::slips`]; with `Slip::None` each of them does nothing.

use crate::log::{Ending, Entry, Field, Part, Reading, Refusal};
use crate::paper::*;
use crate::slips::Slip;

mod writing;
pub use writing::{is_fee, value_width, write, written_length, CAUSES};

/// Reads a list of bytes; `sizes` are the tables' sizes in numbers.
pub fn read(bytes: &[u8], sizes: [usize; 3], slip: Slip) -> Reading {
    let mut reading = Reading::empty();
    read_into(&mut reading, bytes, sizes, slip);
    reading
}

/// The same, into a reading used before (its memory is used again, nothing else).
pub fn read_into(reading: &mut Reading, bytes: &[u8], sizes: [usize; 3], slip: Slip) {
    let mut entries = std::mem::take(&mut reading.entries);
    entries.clear();
    let room = [0, 1, 2].map(|table| (sizes[table] / WIDTHS[table]) as u64);
    let mut reader = Reader { bytes, room, at: 0, entries, slip };
    reading.ending = match reader.transaction() {
        Ok(head) => Ending::Finished(head),
        Err(Stop::More(field, part)) => Ending::More(field, part),
        Err(Stop::Refused(refusal)) => Ending::Refused(refusal),
    };
    reading.taken = match reading.ending {
        Ending::More(..) => bytes.len(),
        _ => reader.at,
    };
    reading.entries = reader.entries;
    if slip != Slip::None {
        // Only a slip lets numbers enter out of order.
        reading.entries.sort_by_key(|entry| entry.at);
    }
}

/// Why a reading goes no further.
enum Stop {
    More(Field, Part),
    Refused(Refusal),
}

type Step<T> = Result<T, Stop>;

struct Reader<'a> {
    bytes: &'a [u8],
    /// Whole records that each table holds.
    room: [u64; 3],
    /// Bytes taken so far.
    at: usize,
    entries: Vec<Entry>,
    slip: Slip,
}

impl<'a> Reader<'a> {
    fn transaction(&mut self) -> Step<Head> {
        let version = self.number(4, Field::Version)?;
        let flag = self.number(1, Field::Flag)?;
        if self.slip.is(Slip::FlagJudgedEarly) {
            self.judge_flag(flag)?;
        }
        let inputs = self.count(Field::InputCount, self.room[INPUTS])?;
        for record in 0..inputs {
            self.input(record as usize)?;
        }
        let outputs = self.count(Field::OutputCount, self.room[OUTPUTS])?;
        for record in 0..outputs {
            self.output(record as usize)?;
        }
        if self.slip.is(Slip::FlagJudgedBeforeLocktime) {
            self.judge_flag(flag)?;
        }
        let locktime = self.number(4, Field::Locktime)?;
        if self.slip.is(Slip::EmptyBeforeFlag) && flag > 1 && inputs + outputs == 0 {
            return self.refuse(8, 4, Field::Whole, Part::Fixed);
        }
        if self.slip.is(Slip::FlagJudgedAfterWitnesses) && flag > 1 {
            self.witnesses(inputs as usize, outputs as usize)?;
        }
        self.judge_flag(flag)?;
        let items = if flag == 1 { self.witnesses(inputs as usize, outputs as usize)? } else { 0 };
        let length = self.slip.pick(Slip::LengthCountsFollowers, self.bytes.len(), self.at);
        Ok([version as u32, flag as u32, inputs as u32, outputs as u32, items as u32, locktime as u32, length as u32])
    }

    fn judge_flag(&self, flag: u64) -> Step<()> {
        if flag > self.slip.pick(Slip::FlagTwoAllowed, 2, 1) {
            return self.refuse(7, 4, Field::Flag, Part::Fixed);
        }
        Ok(())
    }

    // --- inputs

    fn input(&mut self, record: usize) -> Step<()> {
        let txid = self.at;
        self.fixed(PART, Field::Txid)?;
        self.enter(INPUTS, record, 0, txid as u32);
        let raw = self.number(4, Field::Vout)? as u32;
        let (vout, flags) = split(raw, self.slip);
        self.enter(INPUTS, record, 1, vout);
        self.enter(INPUTS, record, 2, flags);
        self.body(Field::Script, INPUTS, record, 3)?;
        let sequence = self.number(4, Field::Sequence)?;
        self.enter(INPUTS, record, 5, sequence as u32);
        if flags & ISSUANCE != 0 {
            self.issuance(record)?;
        }
        Ok(())
    }

    fn issuance(&mut self, record: usize) -> Step<()> {
        let start = self.at;
        self.fixed(PART, Field::BlindingNonce)?;
        let shown = self.slip.pick(Slip::IssuanceBehindNonce, self.at, start);
        self.enter(INPUTS, record, 6, shown as u32);
        self.fixed(PART, Field::Entropy)?;
        let amount = self.prefix(Field::AmountPrefix, &[0, 1, 8, 9])?;
        self.enter(INPUTS, record, 7, amount);
        self.value_after(amount, Field::AmountExplicit, Field::AmountCommitment, INPUTS, record, 8)?;
        if self.slip.is(Slip::NullIssuanceByAmount) && amount == 0 {
            return self.refuse(6, start, Field::AmountPrefix, Part::Fixed);
        }
        let keys = self.prefix(Field::KeysPrefix, &[0, 1, 8, 9])?;
        self.enter(INPUTS, record, 10, keys);
        let amount_null = amount == 0 || self.slip.is(Slip::NullIssuanceByKeys);
        if amount_null && keys == 0 && !self.slip.is(Slip::NullIssuanceAccepted) {
            if self.slip.is(Slip::LimitBeforeNullIssuance) && self.at + 1 > LIMIT {
                return self.refuse(2, self.at, Field::KeysPrefix, Part::Fixed);
            }
            let place = self.slip.pick(Slip::NullIssuancePlace, self.at - 1, start);
            return self.refuse(6, place, Field::KeysPrefix, Part::Fixed);
        }
        self.value_after(keys, Field::KeysExplicit, Field::KeysCommitment, INPUTS, record, 11)
    }

    // --- outputs

    fn output(&mut self, record: usize) -> Step<()> {
        let asset = self.prefix_with_position(Field::AssetPrefix, &[0, 1, 10, 11], record, 0)?;
        if asset != 0 {
            self.fixed(PART, Field::AssetPart)?;
        }
        let value = self.prefix_with_position(Field::ValuePrefix, &[0, 1, 8, 9], record, 2)?;
        self.value_after(value, Field::ValueExplicit, Field::ValueCommitment, OUTPUTS, record, 4)?;
        let nonce = self.prefix_with_position(Field::NoncePrefix, &[0, 1, 2, 3], record, 6)?;
        if nonce != 0 {
            self.fixed(PART, Field::NoncePart)?;
        }
        self.body(Field::OutputScript, OUTPUTS, record, 8)?;
        Ok(())
    }

    fn prefix_with_position(&mut self, field: Field, listed: &[u8], record: usize, number: usize) -> Step<u32> {
        let position = self.at + self.slip.pick(Slip::PositionBehindPrefix, 1, 0);
        let prefix = self.prefix(field, listed)?;
        self.enter(OUTPUTS, record, number, prefix);
        self.enter(OUTPUTS, record, number + 1, position as u32);
        Ok(prefix)
    }

    // --- witnesses

    /// Every witness in wire order; the number of items.
    fn witnesses(&mut self, inputs: usize, outputs: usize) -> Step<u64> {
        let mut items = 0;
        let mut all_empty = true;
        for record in 0..inputs {
            let empty = self.input_witness(record, &mut items)?;
            if self.slip.is(Slip::EmptinessOfEach) && empty {
                return self.refuse(8, 4, Field::Whole, Part::Fixed);
            }
            all_empty &= empty;
        }
        for record in 0..outputs {
            let (first, second) = self.slip.pick(Slip::ProofsSwapped, (12, 10), (10, 12));
            let surjection = self.body(Field::SurjectionProof, OUTPUTS, record, first)?;
            let range = self.body(Field::RangeProof, OUTPUTS, record, second)?;
            all_empty &= surjection + range == 0 || self.slip.is(Slip::EmptinessOfInputsOnly);
        }
        if all_empty && !self.slip.is(Slip::EmptyWitnessesAccepted) {
            let place = self.slip.pick(Slip::EmptyPlace, self.at, 4);
            return self.refuse(8, place, Field::Whole, Part::Fixed);
        }
        Ok(items)
    }

    /// One input's witness: whether it is empty.
    fn input_witness(&mut self, record: usize, items: &mut u64) -> Step<bool> {
        let amount = self.body(Field::AmountProof, INPUTS, record, 13)?;
        let keys = self.body(Field::KeysProof, INPUTS, record, 15)?;
        let before = *items;
        let script_count = self.count(Field::ScriptCount, self.items_left(*items))?;
        let index = self.slip.first_index(before, script_count);
        self.enter(INPUTS, record, 17, index as u32);
        self.enter(INPUTS, record, 18, script_count as u32);
        let script_bytes = self.stack(Field::ScriptItem, script_count, items)?;
        let pegin_count = self.count(Field::PeginCount, self.items_left(*items))?;
        self.enter(INPUTS, record, 19, pegin_count as u32);
        let pegin_bytes = self.stack(Field::PeginItem, pegin_count, items)?;
        if self.slip.is(Slip::FirstIndexOfScriptOnly) {
            *items -= pegin_count;
        }
        if self.slip.is(Slip::EmptyItemsCountAsNone) {
            return Ok(amount + keys + script_bytes + pegin_bytes == 0);
        }
        Ok(amount + keys == 0 && script_count + pegin_count == 0)
    }

    fn items_left(&self, items: u64) -> u64 {
        let left = self.room[ITEMS].saturating_sub(items);
        self.slip.pick(Slip::RoomOfWholeTable, self.room[ITEMS], left)
    }

    /// The items of one stack; the sum of their lengths.
    fn stack(&mut self, field: Field, count: u64, items: &mut u64) -> Step<u64> {
        let mut bytes = 0;
        for _ in 0..count {
            let index = *items as usize;
            *items += 1;
            bytes += self.body(field, ITEMS, index, 0)?;
        }
        Ok(bytes)
    }

    // --- the kinds of field

    /// A field of a fixed width, by itself.
    fn fixed(&mut self, width: usize, field: Field) -> Step<&'a [u8]> {
        self.take(width, self.at, field, Part::Fixed)
    }

    /// Takes a field, or refuses it with 2 at `place` before its first byte is there.
    fn take(&mut self, width: usize, place: usize, field: Field, part: Part) -> Step<&'a [u8]> {
        let start = self.at;
        if start + width > self.slip.limit() && !self.slip.waits_past_limit(part, start == self.bytes.len()) {
            return self.refuse(2, place, field, part);
        }
        if self.bytes.len() - start < width {
            return Err(Stop::More(field, part));
        }
        self.at = start + width;
        Ok(&self.bytes[start..self.at])
    }

    fn number(&mut self, width: usize, field: Field) -> Step<u64> {
        Ok(little_endian(self.fixed(width, field)?))
    }

    fn prefix(&mut self, field: Field, listed: &[u8]) -> Step<u32> {
        let place = self.at;
        let prefix = self.fixed(1, field)?[0];
        if !listed.contains(&prefix) && !self.slip.prefix_allowed(field, prefix)
            || self.slip.prefix_refused(field, prefix)
        {
            let place = self.slip.pick(Slip::PrefixPlace, place + 1, place);
            return self.refuse(5, place, field, Part::Fixed);
        }
        Ok(prefix as u32)
    }

    /// What follows a value's prefix; high enters at `number`, low behind it.
    fn value_after(
        &mut self,
        prefix: u32,
        explicit: Field,
        commitment: Field,
        table: usize,
        record: usize,
        number: usize,
    ) -> Step<()> {
        match prefix {
            0 => {}
            1 => {
                let amount = self.slip.amount(big_endian(self.fixed(8, explicit)?));
                self.enter(table, record, number, (amount >> 32) as u32);
                self.enter(table, record, number + 1, amount as u32);
            }
            _ => {
                self.fixed(PART, commitment)?;
            }
        }
        Ok(())
    }

    /// A count: 2, 3, then 4.
    fn count(&mut self, field: Field, left: u64) -> Step<u64> {
        let start = self.at;
        if self.slip.is(Slip::RoomBeforeShortest) {
            let count = self.any_form(field)?;
            self.judge_room(count, left, start, field)?;
            self.judge_shortest(count, start, field)?;
            return Ok(count);
        }
        let count = self.shortest_form(field)?;
        self.judge_room(count, left, start, field)?;
        Ok(count)
    }

    fn judge_room(&self, count: u64, left: u64, start: usize, field: Field) -> Step<()> {
        let count = self.slip.pick(Slip::CountWrapsAt32, count as u32 as u64, count);
        if count > left + self.slip.pick(Slip::RoomForOneMore, 1, 0) {
            if self.slip.is(Slip::LimitBeforeRoom) && self.at + 1 > LIMIT {
                return self.refuse(2, self.at, field, Part::Further);
            }
            let place = self.slip.pick(Slip::RoomPlaceBehindCount, self.at, start);
            return self.refuse(4, place, field, Part::First);
        }
        Ok(())
    }

    /// A length and its body: 2, 3, then 2 for the body, each placed at the length's start. The length.
    fn body(&mut self, field: Field, table: usize, record: usize, number: usize) -> Step<u64> {
        let start = self.at;
        let late = self.slip.is(Slip::BodyLimitBeforeShortest);
        let length = if late { self.any_form(field)? } else { self.shortest_form(field)? };
        let position = self.at;
        let length = self.slip.length_used(position, length);
        // A length may be anything up to 2^64-1: the sum mustn't wrap.
        if position as u128 + length as u128 > self.slip.limit() as u128 {
            let place = self.slip.pick(Slip::BodyLimitPlacedAtBody, position, start);
            return self.refuse(2, place, field, Part::Body);
        }
        if late {
            self.judge_shortest(length, start, field)?;
        }
        let shown = if length == 0 && self.slip.is(Slip::EmptyBodyAtZero) { 0 } else { position };
        self.enter(table, record, number, shown as u32);
        self.enter(table, record, number + 1, length as u32);
        self.take(length as usize, start, field, Part::Body)?;
        Ok(length)
    }

    /// A count or length in its shortest form.
    fn shortest_form(&mut self, field: Field) -> Step<u64> {
        let start = self.at;
        let value = self.any_form(field)?;
        self.judge_shortest(value, start, field)?;
        Ok(value)
    }

    /// A count or length in any form; its first byte is a field, then its further bytes.
    fn any_form(&mut self, field: Field) -> Step<u64> {
        let start = self.at;
        let first = self.take(1, start, field, Part::First)?[0];
        let width = match first {
            253 => 2,
            254 => 4,
            255 => 8,
            _ => return Ok(first as u64),
        };
        let place = self.slip.pick(Slip::FurtherBytesPlace, self.at, start);
        Ok(little_endian(self.take(width, place, field, Part::Further)?))
    }

    /// Shortest form is judged after the last byte, from the width just taken.
    fn judge_shortest(&self, value: u64, start: usize, field: Field) -> Step<()> {
        let least = match self.at - start {
            3 => LEAST_OF_2,
            5 => self.slip.pick(Slip::ShortestFormOff, LEAST_OF_4 - 1, LEAST_OF_4),
            9 => self.slip.pick(Slip::EightBytesAlwaysShortest, 0, LEAST_OF_8),
            _ => 0,
        };
        if value < least {
            return self.refuse(3, self.slip.pick(Slip::ShortestPlace, self.at - 1, start), field, Part::Further);
        }
        Ok(())
    }

    fn enter(&mut self, table: usize, record: usize, number: usize, value: u32) {
        let at = self.slip.enters_at(table, number, self.at);
        self.entries.push(Entry { at, table, index: record * WIDTHS[table] + number, value });
    }

    fn refuse<T>(&self, number: usize, place: usize, field: Field, part: Part) -> Step<T> {
        Err(Stop::Refused(Refusal { number, place, field, part }))
    }
}

fn little_endian(bytes: &[u8]) -> u64 {
    bytes.iter().rev().fold(0, |number, &byte| number << 8 | byte as u64)
}

fn big_endian(bytes: &[u8]) -> u64 {
    bytes.iter().fold(0, |number, &byte| number << 8 | byte as u64)
}

/// Vout and flags out of the raw vout.
fn split(raw: u32, slip: Slip) -> (u32, u32) {
    if raw == ALL_ONES && !slip.is(Slip::AllOnesSplit) {
        return (raw, 0);
    }
    let pegin = raw >> slip.pick(Slip::FlagBitsSwapped, 31, 30) & 1;
    let issuance = raw >> slip.pick(Slip::FlagBitsSwapped, 30, 31) & 1;
    let vout = slip.pick(Slip::FlagBitsKept, raw, raw & (VOUT_END - 1));
    (vout, pegin * PEGIN + issuance * ISSUANCE)
}

// ---------------------------------------------------------------------------------------------------------
// Feeding: the reading cut at pieces.

/// The calls a caller makes, answered from the whole reading.
pub struct Feeding<'a> {
    reading: &'a Reading,
    sizes: [usize; 3],
    fed: usize,
    entered: usize,
    ended: Option<Outcome>,
    slip: Slip,
}

impl<'a> Feeding<'a> {
    /// A fresh start: every table is set to 0.
    pub fn fresh(reading: &'a Reading, lent: &mut Lent, slip: Slip) -> Feeding<'a> {
        slip.zero_at_start(lent);
        Feeding { reading, sizes: lent.sizes(), fed: 0, entered: 0, ended: None, slip }
    }

    /// Hands over the next `length` bytes of those that were read.
    pub fn push(&mut self, length: usize, lent: &mut Lent) -> Outcome {
        if let Some(misuse) = self.misuse(lent) {
            return misuse;
        }
        if self.ended.is_some() {
            return self.repeat(lent);
        }
        if self.slip.is(Slip::EmptyPieceEnds) && length == 0 {
            return self.end(lent);
        }
        let wanted = matches!(self.reading.ending, Ending::More(..)) || self.fed + length < self.reading.taken;
        let upto = if wanted { self.fed + length } else { self.reading.taken };
        let taken = upto - self.fed;
        self.fed = upto;
        self.enter_upto(upto, lent);
        if wanted {
            return self.slip.more(taken, self.reading);
        }
        let outcome = self.close(taken, lent);
        self.ended = Some(Outcome { taken: 0, ..outcome });
        outcome
    }

    /// Finishing: refusal 1 if more is wanted.
    pub fn end(&mut self, lent: &mut Lent) -> Outcome {
        if let Some(misuse) = self.misuse(lent) {
            return misuse;
        }
        if self.slip.is(Slip::FinishAlwaysOne) && self.ended.map_or(false, |ended| ended.answer != FINISHED) {
            self.ended = None;
        }
        if self.ended.is_some() {
            return self.repeat(lent);
        }
        self.slip.zero_after_refusal(lent);
        let place = self.slip.pick(Slip::OnePlaceOff, self.fed.saturating_sub(1), self.fed);
        let outcome = Outcome::headless(1, place, 0);
        self.ended = Some(outcome);
        if self.slip.is(Slip::OneDoesNotEnd) {
            self.ended = None;
        }
        outcome
    }

    /// Number 10 comes before anything else and touches nothing.
    fn misuse(&self, lent: &mut Lent) -> Option<Outcome> {
        let same = self.slip.same_sizes(self.sizes, lent.sizes());
        if same || self.slip.is(Slip::MisuseOnlyWhileWanted) && self.ended.is_some() {
            return None;
        }
        if self.slip.is(Slip::MisuseZeroes) {
            lent.zero();
        }
        Some(Outcome::headless(10, 0, 0))
    }

    /// An ended reading takes no more and repeats its answer.
    fn repeat(&self, lent: &mut Lent) -> Outcome {
        let outcome = self.ended.expect("only an ended reading repeats");
        if outcome.answer != FINISHED {
            if !self.slip.is(Slip::RepeatLeavesTables) {
                lent.zero();
            }
        } else if self.slip.is(Slip::RepeatZeroesFinished) {
            lent.zero();
        }
        self.slip.repeated(outcome)
    }

    /// The numbers whose fields have ended stand in the tables; the others stay 0.
    fn enter_upto(&mut self, taken: usize, lent: &mut Lent) {
        let entries = &self.reading.entries;
        while self.entered < entries.len() && entries[self.entered].at <= taken {
            let entry = entries[self.entered];
            if let Some(number) = lent.table(entry.table).get_mut(entry.index) {
                *number = entry.value;
            }
            self.entered += 1;
        }
    }

    fn close(&self, taken: usize, lent: &mut Lent) -> Outcome {
        match self.reading.ending {
            Ending::Finished(head) => Outcome { answer: FINISHED, place: 0, taken, head },
            Ending::Refused(refusal) => {
                self.slip.zero_after_refusal(lent);
                let taken = self.slip.pick(Slip::SettlingByteNotTaken, taken - 1, taken);
                Outcome::headless(refusal.number, refusal.place, taken)
            }
            Ending::More(..) => unreachable!("a reading that wants more hasn't ended"),
        }
    }
}

/// Reading at once: fresh start, one piece, finish. The strict form then adds 9.
pub fn read_at_once(reading: &Reading, given: usize, lent: &mut Lent, strict: bool, slip: Slip) -> Outcome {
    let mut feeding = Feeding::fresh(reading, lent, slip);
    let pushed = feeding.push(given, lent);
    let outcome = Outcome { taken: pushed.taken, ..feeding.end(lent) };
    if !strict || slip.is(Slip::StrictIsPlain) || outcome.answer != FINISHED || pushed.taken == given {
        return outcome;
    }
    slip.zero_after_refusal(lent);
    let place = slip.pick(Slip::StrictPlaceOff, pushed.taken + 1, pushed.taken);
    // The reading had ended before the follower, so the follower isn't taken.
    let taken = slip.pick(Slip::StrictTakesFollower, pushed.taken + 1, pushed.taken);
    Outcome::headless(9, place, taken)
}
