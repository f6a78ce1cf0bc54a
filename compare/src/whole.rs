//! A fast reader of a whole slice: one pass, no allocation, numbers loaded at once, bodies skipped by length.
//!
//! The hot path asks one question of each field: does it end by `end`, the lesser of the slice's end and the
//! limit? Only when it doesn't is it asked which of the two it was.

use crate::paper::*;

/// Reads at once, strictly or not. The tables are zeroed first, and again if the reading is refused.
pub fn read(bytes: &[u8], lent: &mut Lent, strict: bool) -> Outcome {
    lent.zero();
    let mut reader = Reader { bytes, end: bytes.len().min(LIMIT), at: 0 };
    let refused = match reader.transaction(lent) {
        Ok(head) if strict && reader.at < bytes.len() => {
            debug_assert_eq!(head[6] as usize, reader.at);
            Refused { number: 9, place: reader.at }
        }
        Ok(head) => return Outcome { answer: FINISHED, place: 0, taken: reader.at, head },
        Err(refused) => refused,
    };
    lent.zero();
    let taken = if refused.number == 1 { bytes.len() } else { reader.at };
    Outcome::headless(refused.number, refused.place, taken)
}

struct Refused {
    number: usize,
    place: usize,
}

type Fallible<T> = Result<T, Refused>;

struct Reader<'a> {
    bytes: &'a [u8],
    end: usize,
    at: usize,
}

/// What a value's body turned out to be.
#[derive(Clone, Copy)]
struct Value {
    prefix: u32,
    amount: u64,
}

impl<'a> Reader<'a> {
    fn transaction(&mut self, lent: &mut Lent) -> Fallible<Head> {
        let version = self.u32()?;
        let flag = self.byte()?;
        let inputs = self.count(lent.inputs.len() / INPUT)?;
        for record in lent.inputs.chunks_exact_mut(INPUT).take(inputs) {
            self.input(record.try_into().expect("a whole record"))?;
        }
        let outputs = self.count(lent.outputs.len() / OUTPUT)?;
        for record in lent.outputs.chunks_exact_mut(OUTPUT).take(outputs) {
            self.output(record.try_into().expect("a whole record"))?;
        }
        let locktime = self.u32()?;
        let items = match flag {
            0 => 0,
            1 => self.witnesses(lent, inputs, outputs)?,
            _ => return Err(Refused { number: 7, place: 4 }),
        };
        Ok([version, flag as u32, inputs as u32, outputs as u32, items as u32, locktime, self.at as u32])
    }

    #[inline]
    fn input(&mut self, record: &mut [u32; INPUT]) -> Fallible<()> {
        record[0] = self.at as u32;
        self.skip(PART)?;
        let raw = self.u32()?;
        // Flags are the two top bits, pegin below issuance, except for the all-ones outpoint.
        let flags = if raw == ALL_ONES { 0 } else { raw >> 30 };
        record[1] = if raw == ALL_ONES { raw } else { raw & (VOUT_END - 1) };
        record[2] = flags;
        [record[3], record[4]] = self.body()?;
        record[5] = self.u32()?;
        if flags & ISSUANCE != 0 {
            self.issuance(record)?;
        }
        Ok(())
    }

    fn issuance(&mut self, record: &mut [u32; INPUT]) -> Fallible<()> {
        let start = self.at;
        self.skip(PART)?;
        self.skip(PART)?;
        let amount = self.value()?;
        let keys = self.value()?;
        if amount.prefix == 0 && keys.prefix == 0 {
            return Err(Refused { number: 6, place: start });
        }
        record[6] = start as u32;
        record[7] = amount.prefix;
        record[8] = (amount.amount >> 32) as u32;
        record[9] = amount.amount as u32;
        record[10] = keys.prefix;
        record[11] = (keys.amount >> 32) as u32;
        record[12] = keys.amount as u32;
        Ok(())
    }

    #[inline]
    fn output(&mut self, record: &mut [u32; OUTPUT]) -> Fallible<()> {
        record[1] = self.at as u32;
        record[0] = self.part_after(|prefix| matches!(prefix, 1 | 10 | 11))?;
        record[3] = self.at as u32;
        let value = self.value()?;
        record[2] = value.prefix;
        record[4] = (value.amount >> 32) as u32;
        record[5] = value.amount as u32;
        record[7] = self.at as u32;
        record[6] = self.part_after(|prefix| matches!(prefix, 1..=3))?;
        [record[8], record[9]] = self.body()?;
        Ok(())
    }

    /// All witnesses; the number of items.
    fn witnesses(&mut self, lent: &mut Lent, inputs: usize, outputs: usize) -> Fallible<usize> {
        let mut used = 0;
        // Every length and every stack's count goes in here: 0 at the end means that all are empty.
        let mut seen = 0;
        for record in lent.inputs.chunks_exact_mut(INPUT).take(inputs) {
            [record[13], record[14]] = self.body()?;
            [record[15], record[16]] = self.body()?;
            record[17] = used as u32;
            record[18] = self.stack(lent.items, &mut used)?;
            record[19] = self.stack(lent.items, &mut used)?;
            seen |= record[14] | record[16] | record[18] | record[19];
        }
        for record in lent.outputs.chunks_exact_mut(OUTPUT).take(outputs) {
            [record[10], record[11]] = self.body()?;
            [record[12], record[13]] = self.body()?;
            seen |= record[11] | record[13];
        }
        if seen == 0 {
            return Err(Refused { number: 8, place: 4 });
        }
        Ok(used)
    }

    /// One stack into the records from `used` on; its count.
    #[inline]
    fn stack(&mut self, items: &mut [u32], used: &mut usize) -> Fallible<u32> {
        let rest = &mut items[*used * ITEM..];
        let count = self.count(rest.len() / ITEM)?;
        for record in rest.chunks_exact_mut(ITEM).take(count) {
            [record[0], record[1]] = self.body()?;
        }
        *used += count;
        Ok(count as u32)
    }

    /// An asset or a nonce; `listed` says which prefixes are followed by 32 bytes.
    #[inline]
    fn part_after(&mut self, listed: impl Fn(u8) -> bool) -> Fallible<u32> {
        let prefix = self.byte()?;
        if prefix == 0 {
            return Ok(0);
        }
        if !listed(prefix) {
            return Err(Refused { number: 5, place: self.at - 1 });
        }
        self.skip(PART)?;
        Ok(prefix as u32)
    }

    #[inline]
    fn value(&mut self) -> Fallible<Value> {
        let prefix = self.byte()?;
        let amount = match prefix {
            0 => 0,
            1 => u64::from_be_bytes(self.load()?),
            8 | 9 => {
                self.skip(PART)?;
                0
            }
            _ => return Err(Refused { number: 5, place: self.at - 1 }),
        };
        Ok(Value { prefix: prefix as u32, amount })
    }

    /// A length and its body, skipped: position and length.
    #[inline]
    fn body(&mut self) -> Fallible<[u32; 2]> {
        let start = self.at;
        let length = self.compact(start)?;
        let position = self.at;
        // `position` is at most the limit, so nothing can wrap here.
        if length > (LIMIT - position) as u64 {
            return Err(Refused { number: 2, place: start });
        }
        self.skip(length as usize)?;
        Ok([position as u32, length as u32])
    }

    #[inline]
    fn count(&mut self, left: usize) -> Fallible<usize> {
        let start = self.at;
        let count = self.compact(start)?;
        if count > left as u64 {
            return Err(Refused { number: 4, place: start });
        }
        Ok(count as usize)
    }

    #[inline]
    fn compact(&mut self, start: usize) -> Fallible<u64> {
        let first = self.byte()?;
        if first < 253 {
            return Ok(first as u64);
        }
        self.long_compact(first, start)
    }

    fn long_compact(&mut self, first: u8, start: usize) -> Fallible<u64> {
        let (width, least) = match first {
            253 => (2, LEAST_OF_2),
            254 => (4, LEAST_OF_4),
            _ => (8, LEAST_OF_8),
        };
        if self.at + width > LIMIT {
            return Err(Refused { number: 2, place: start });
        }
        let value = match width {
            2 => u16::from_le_bytes(self.load()?) as u64,
            4 => u32::from_le_bytes(self.load()?) as u64,
            _ => u64::from_le_bytes(self.load()?),
        };
        if value < least {
            return Err(Refused { number: 3, place: start });
        }
        Ok(value)
    }

    #[inline]
    fn byte(&mut self) -> Fallible<u8> {
        let [byte] = self.load()?;
        Ok(byte)
    }

    #[inline]
    fn u32(&mut self) -> Fallible<u32> {
        Ok(u32::from_le_bytes(self.load()?))
    }

    #[inline]
    fn load<const N: usize>(&mut self) -> Fallible<[u8; N]> {
        let start = self.at;
        self.skip(N)?;
        Ok(self.bytes[start..start + N].try_into().expect("N bytes"))
    }

    #[inline]
    fn skip(&mut self, width: usize) -> Fallible<()> {
        if width > self.end - self.at {
            return Err(self.missing(width));
        }
        self.at += width;
        Ok(())
    }

    /// The field doesn't end by `end`: past the limit, or past the bytes that are there?
    #[cold]
    fn missing(&self, width: usize) -> Refused {
        if self.at + width > LIMIT {
            Refused { number: 2, place: self.at }
        } else {
            Refused { number: 1, place: self.bytes.len() }
        }
    }
}
