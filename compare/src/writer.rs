//! A fast writer: one pass that judges and adds up the length, one pass that writes. No allocation.

use crate::paper::*;

/// Length alone: every refusal but 14.
pub fn written_length(order: &Order) -> Written {
    match judge(order) {
        Ok(length) => Written { answer: 0, place: 0, length },
        Err(refused) => refused,
    }
}

/// Writes into the output; a refused write leaves it untouched.
pub fn write(order: &Order, output: &mut [u8]) -> Written {
    let length = match judge(order) {
        Ok(length) => length,
        Err(refused) => return refused,
    };
    if length > output.len() {
        return Written { answer: 14, place: 0, length: 0 };
    }
    let mut pen = Pen { rest: output, source: order.source };
    pen.transaction(order);
    Written { answer: 0, place: 0, length }
}

pub fn is_fee(output: &[u32; OUTPUT]) -> bool {
    output[9] == 0
}

fn refused(answer: usize, place: usize) -> Written {
    Written { answer, place, length: 0 }
}

/// Adds up lengths and whatever makes a witness non-empty while the records go by.
struct Sums {
    source: u64,
    witness: bool,
    length: u64,
    items: u64,
    seen: u32,
}

fn judge(order: &Order) -> Result<usize, Written> {
    let [_, flag, inputs, outputs, items, _, _] = *order.head;
    let fits = |count: u32, table: &[u32], width: usize| count as usize <= table.len() / width;
    if !fits(inputs, order.inputs, INPUT) || !fits(outputs, order.outputs, OUTPUT) || !fits(items, order.items, ITEM) {
        return Err(refused(10, 0));
    }
    if flag > 1 {
        return Err(refused(7, 4));
    }
    // Version, flag and locktime have fixed widths.
    let length = 4 + 1 + 4 + width_of(inputs) + width_of(outputs);
    let mut sums = Sums { source: order.source.len() as u64, witness: flag == 1, length, items: 0, seen: 0 };
    for (place, record) in first(order.inputs, INPUT, inputs) {
        sums.input(record.try_into().expect("a whole record")).map_err(|number| refused(number, place))?;
    }
    for (place, record) in first(order.outputs, OUTPUT, outputs) {
        let sound = sums.output(record.try_into().expect("a whole record"));
        sound.then_some(()).ok_or(refused(13, place))?;
    }
    for (place, record) in first(order.items, ITEM, items) {
        let sound = if sums.witness { sums.body(record[0], record[1]) } else { record == [0, 0] };
        sound.then_some(()).ok_or(refused(13, place))?;
    }
    if sums.items != items as u64 {
        return Err(refused(13, inputs as usize));
    }
    if sums.witness && sums.seen == 0 {
        return Err(refused(8, 4));
    }
    if sums.length > LIMIT as u64 {
        return Err(refused(2, 0));
    }
    Ok(sums.length as usize)
}

fn first(table: &[u32], width: usize, count: u32) -> impl Iterator<Item = (usize, &[u32])> {
    table.chunks_exact(width).take(count as usize).enumerate()
}

impl Sums {
    /// Judges an input record; the refusal's number if it has one.
    fn input(&mut self, record: &[u32; INPUT]) -> Result<(), usize> {
        let [txid, vout, flags, script, script_length, _, ref more @ ..] = *record;
        let issued = flags & ISSUANCE != 0;
        let sound = flags <= 3
            && self.within(txid, 32)
            && self.body(script, script_length)
            && if issued { self.issuance(more) } else { more[..7] == [0; 7] }
            && self.input_witness(&record[13..]);
        if !sound {
            return Err(13);
        }
        self.length += 40;
        // The raw vout would be read as something else: a stray flag bit, a lost flag, or the all-ones outpoint.
        let fits = if vout == ALL_ONES { flags == 0 } else { vout < VOUT_END && vout | flags << 30 != ALL_ONES };
        if !fits {
            return Err(12);
        }
        if issued && record[7] | record[10] == 0 {
            return Err(6);
        }
        Ok(())
    }

    /// `more` starts at the issuance position.
    fn issuance(&mut self, more: &[u32]) -> bool {
        let (amount, keys) = match (width_of_value(&more[1..4]), width_of_value(&more[4..7])) {
            (Some(amount), Some(keys)) => (amount, keys),
            _ => return false,
        };
        self.length += 64 + amount + keys;
        self.within(more[0], 64 + amount + keys)
    }

    fn input_witness(&mut self, numbers: &[u32]) -> bool {
        let seven: [u32; 7] = numbers.try_into().expect("seven witness numbers");
        let [amount, amount_length, keys, keys_length, index, script_items, pegin_items] = seven;
        if !self.witness {
            return numbers.iter().all(|&number| number == 0);
        }
        let sound = self.body(amount, amount_length) && self.body(keys, keys_length) && index as u64 == self.items;
        self.length += width_of(script_items) + width_of(pegin_items);
        self.items += script_items as u64 + pegin_items as u64;
        self.seen |= amount_length | keys_length | script_items | pegin_items;
        sound
    }

    fn output(&mut self, record: &[u32; OUTPUT]) -> bool {
        let [asset, asset_at, value, value_at, high, low, nonce, nonce_at, script, script_length, witness @ ..] =
            record;
        let width = match width_of_value(&[*value, *high, *low]) {
            Some(width) => width,
            None => return false,
        };
        self.length += width;
        matches!(asset, 0 | 1 | 10 | 11)
            && matches!(nonce, 0..=3)
            && self.part(*asset, *asset_at)
            && (width != 33 || self.within(*value_at, 33))
            && self.part(*nonce, *nonce_at)
            && self.body(*script, *script_length)
            && self.output_witness(witness)
    }

    fn output_witness(&mut self, witness: &[u32; 4]) -> bool {
        let [surjection, surjection_length, range, range_length] = *witness;
        if !self.witness {
            return surjection | surjection_length | range | range_length == 0;
        }
        self.seen |= surjection_length | range_length;
        self.body(surjection, surjection_length) && self.body(range, range_length)
    }

    fn part(&mut self, prefix: u32, position: u32) -> bool {
        let width = if prefix == 0 { 1 } else { 33 };
        self.length += width;
        prefix == 0 || self.within(position, 33)
    }

    fn body(&mut self, position: u32, length: u32) -> bool {
        self.length += width_of(length) + length as u64;
        self.within(position, length as u64)
    }

    fn within(&self, position: u32, length: u64) -> bool {
        position as u64 + length <= self.source
    }
}

/// A value's width from prefix, high and low; none if the three break the rules.
fn width_of_value(value: &[u32]) -> Option<u64> {
    match *value {
        [0, 0, 0] => Some(1),
        [1, _, _] => Some(9),
        [8 | 9, 0, 0] => Some(33),
        _ => None,
    }
}

fn width_of(count: u32) -> u64 {
    if count < 253 {
        1
    } else if count < 65_536 {
        3
    } else {
        5
    }
}

/// Writes at the front of what is left of the output.
struct Pen<'a> {
    rest: &'a mut [u8],
    source: &'a [u8],
}

impl Pen<'_> {
    fn transaction(&mut self, order: &Order) {
        let [version, flag, inputs, outputs, _, locktime, _] = *order.head;
        self.put(&version.to_le_bytes());
        self.put(&[flag as u8]);
        self.count(inputs);
        for (_, record) in first(order.inputs, INPUT, inputs) {
            self.input(record);
        }
        self.count(outputs);
        for (_, record) in first(order.outputs, OUTPUT, outputs) {
            self.part(record[0], record[1]);
            self.value(&[record[2], record[4], record[5]], record[3] as usize);
            self.part(record[6], record[7]);
            self.body(&record[8..10]);
        }
        self.put(&locktime.to_le_bytes());
        if flag == 1 {
            self.witnesses(order);
        }
    }

    fn input(&mut self, record: &[u32]) {
        self.copy(record[0] as usize, PART);
        let raw = if record[1] == ALL_ONES { ALL_ONES } else { record[1] | record[2] << 30 };
        self.put(&raw.to_le_bytes());
        self.body(&record[3..5]);
        self.put(&record[5].to_le_bytes());
        if record[2] & ISSUANCE != 0 {
            let amount = record[6] as usize + 64;
            let keys = amount + width_of_value(&record[7..10]).expect("judged") as usize;
            self.copy(record[6] as usize, 64);
            self.value(&record[7..10], amount);
            self.value(&record[10..13], keys);
        }
    }

    fn witnesses(&mut self, order: &Order) {
        let [_, _, inputs, outputs, ..] = *order.head;
        for (_, record) in first(order.inputs, INPUT, inputs) {
            self.body(&record[13..15]);
            self.body(&record[15..17]);
            let script = record[17] as usize;
            let pegin = script + record[18] as usize;
            self.stack(order.items, script, record[18]);
            self.stack(order.items, pegin, record[19]);
        }
        for (_, record) in first(order.outputs, OUTPUT, outputs) {
            self.body(&record[10..12]);
            self.body(&record[12..14]);
        }
    }

    fn stack(&mut self, items: &[u32], index: usize, count: u32) {
        self.count(count);
        for item in items[index * ITEM..].chunks_exact(ITEM).take(count as usize) {
            self.body(item);
        }
    }

    fn part(&mut self, prefix: u32, position: u32) {
        self.put(&[prefix as u8]);
        if prefix != 0 {
            self.copy(position as usize + 1, PART);
        }
    }

    fn value(&mut self, value: &[u32], position: usize) {
        self.put(&[value[0] as u8]);
        match value[0] {
            0 => {}
            1 => {
                self.put(&value[1].to_be_bytes());
                self.put(&value[2].to_be_bytes());
            }
            _ => self.copy(position + 1, PART),
        }
    }

    fn body(&mut self, numbers: &[u32]) {
        self.count(numbers[1]);
        self.copy(numbers[0] as usize, numbers[1] as usize);
    }

    fn count(&mut self, count: u32) {
        match width_of(count) {
            1 => self.put(&[count as u8]),
            3 => {
                self.put(&[253]);
                self.put(&(count as u16).to_le_bytes());
            }
            _ => {
                self.put(&[254]);
                self.put(&count.to_le_bytes());
            }
        }
    }

    fn copy(&mut self, position: usize, length: usize) {
        let source = self.source;
        self.put(&source[position..position + length]);
    }

    fn put(&mut self, bytes: &[u8]) {
        let (here, rest) = std::mem::take(&mut self.rest).split_at_mut(bytes.len());
        here.copy_from_slice(bytes);
        self.rest = rest;
    }
}
