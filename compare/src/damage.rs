//! Turns sound transactions and tables into cases: sound ones, and ones with each fault at each place.

use crate::generate::{put_compact_of_width, Kind, Made, Random, Span};
use crate::log::Field;
use crate::paper::*;

// ---------------------------------------------------------------------------------------------------------
// Reading.

/// Bytes, tables' sizes in numbers, the lengths of the pieces (the rest is the last piece), and a seed for what
/// else the caller does between pieces.
#[derive(Clone, Debug, Default)]
pub struct Case {
    pub bytes: Vec<u8>,
    pub sizes: [usize; 3],
    pub pieces: Vec<usize>,
    pub whims: u64,
    /// The bytes' memory is the sea's.
    afloat: bool,
}

/// A long list of zero bytes, lent to the cases near the limit so that it isn't made anew for each.
pub struct Sea {
    zeros: Vec<u8>,
}

/// Longer than any case near the limit.
const SEA: usize = LIMIT + 200_000;
/// At most so many bytes at each end of a case near the limit aren't zero.
const LONGEST_END: usize = 70_000;

impl Default for Sea {
    fn default() -> Sea {
        Sea { zeros: vec![0; SEA] }
    }
}

impl Sea {
    /// Lays `front` at the start and `back` at `position`, zeros between.
    fn lend(&mut self, front: &[u8], position: usize, back: &[u8]) -> Vec<u8> {
        let mut bytes = std::mem::take(&mut self.zeros);
        bytes[..front.len()].copy_from_slice(front);
        let end = position + back.len();
        bytes[position..end].copy_from_slice(back);
        bytes.truncate(end);
        bytes
    }

    /// Takes the bytes back and makes them zero again; only the two ends can be anything else.
    fn give_back(&mut self, mut bytes: Vec<u8>, ends: usize) {
        let length = bytes.len();
        bytes[..ends.min(length)].fill(0);
        bytes[length.saturating_sub(ends)..].fill(0);
        bytes.resize(SEA, 0);
        self.zeros = bytes;
    }
}

/// Fills in a case made from a sound transaction.
pub fn reading_case(case: &mut Case, made: &Made, sea: &mut Sea, random: &mut Random) {
    case.bytes.clear();
    case.bytes.extend_from_slice(&made.bytes);
    case.sizes = sizes_around(made.counts, random);
    case.whims = random.draw();
    if made.bytes.len() < LONGEST_END - 20 && random.once_in(40) {
        near_the_limit(case, made, sea, random);
    } else {
        damage(&mut case.bytes, made, random);
    }
    cut(case, made, random);
}

/// Gives the memory of a case near the limit back.
pub fn retire(case: &mut Case, sea: &mut Sea) {
    if case.afloat {
        sea.give_back(std::mem::take(&mut case.bytes), LONGEST_END);
        case.afloat = false;
    }
}

/// Exact capacity, one over, one under, surplus numbers, or sizes that hold no record at all.
fn sizes_around(counts: [usize; 3], random: &mut Random) -> [usize; 3] {
    if random.once_in(100) {
        // The program's tables.
        return [64 * INPUT, 64 * OUTPUT, 256 * ITEM];
    }
    [INPUTS, OUTPUTS, ITEMS].map(|table| {
        let (count, width) = (counts[table], WIDTHS[table]);
        match random.below(20) {
            0 => count.saturating_sub(1) * width + random.below(width),
            1 => random.choose(&[0, 1, width - 1, width, width + 1]),
            2 => (count + 1) * width - 1,
            3..=6 => count * width + random.below(3 * width),
            7..=9 => (count + 1) * width,
            _ => count * width,
        }
    })
}

fn damage(bytes: &mut Vec<u8>, made: &Made, random: &mut Random) {
    match random.below(24) {
        0..=6 => {}
        7..=9 => truncate(bytes, made, random),
        10 | 11 => lengthen_a_form(bytes, made, random),
        12 | 13 => spoil_a_prefix(bytes, made, random),
        14 | 15 => change_a_length(bytes, made, random),
        16 | 17 => change_a_count(bytes, made, random),
        18 => bytes[4] = random.choose(&[0, 1, 2, 3, 128, 255]),
        19 => spoil_vout(bytes, made, random),
        20 | 21 => {
            for _ in 0..1 + random.below(3) {
                let at = random.below(bytes.len());
                bytes[at] = random.draw() as u8;
            }
        }
        _ => nullify(bytes, made, random),
    }
    // Other faults behind, so that the order shows.
    if random.once_in(10) {
        let followers = 1 + random.below(9);
        bytes.extend((0..followers).map(|_| random.draw() as u8));
    }
    if random.once_in(10) && bytes.len() > 4 {
        bytes[4] = random.choose(&[0, 1, 2, 2, 255]);
    }
    if random.once_in(16) {
        bytes.truncate(random.below(bytes.len() + 1));
    }
}

fn truncate(bytes: &mut Vec<u8>, made: &Made, random: &mut Random) {
    let span = made.spans[random.below(made.spans.len())];
    let near = (span.start + random.below(3)).saturating_sub(1);
    let at = if random.once_in(2) { near } else { random.below(bytes.len() + 1) };
    bytes.truncate(at);
}

/// A random span for which `wanted` holds.
fn some_span(made: &Made, random: &mut Random, wanted: impl Fn(&Span) -> bool) -> Option<Span> {
    let first = random.below(made.spans.len());
    let turned = made.spans[first..].iter().chain(&made.spans[..first]);
    turned.copied().find(|span| wanted(span))
}

/// The number that a count or length has.
fn number_at(bytes: &[u8], span: Span) -> u64 {
    let field = &bytes[span.start..span.start + span.width];
    let digits = if field.len() == 1 { field } else { &field[1..] };
    digits.iter().rev().fold(0, |number, &byte| number << 8 | byte as u64)
}

fn replace(bytes: &mut Vec<u8>, span: Span, number: u64, width: usize) {
    let mut form = Vec::new();
    put_compact_of_width(&mut form, number, width);
    bytes.splice(span.start..span.start + span.width, form);
}

/// The same number with more further bytes than it needs.
fn lengthen_a_form(bytes: &mut Vec<u8>, made: &Made, random: &mut Random) {
    let span = match some_span(made, random, |span| matches!(span.kind, Kind::Count | Kind::Length)) {
        Some(span) => span,
        None => return,
    };
    let number = number_at(bytes, span);
    // The numbers just below each form's least one show an error by one.
    let number = random.choose(&[number, number, number, 252, 65_535, 4_294_967_295]);
    let width = random.choose(&[2, 4, 8]);
    replace(bytes, span, number, width);
}

fn spoil_a_prefix(bytes: &mut [u8], made: &Made, random: &mut Random) {
    if let Some(span) = some_span(made, random, |span| span.kind == Kind::Prefix) {
        let any = random.draw() as u8;
        bytes[span.start] = random.choose(&[0, 1, 2, 3, 4, 5, 7, 8, 9, 10, 11, 12, 128, 255, any]);
    }
}

/// A length that is huge, wraps, or ends just about the limit; in any form.
fn change_a_length(bytes: &mut Vec<u8>, made: &Made, random: &mut Random) {
    let span = match some_span(made, random, |span| span.kind == Kind::Length) {
        Some(span) => span,
        None => return,
    };
    let old = number_at(bytes, span);
    let width = random.choose(&[2, 4, 8, 8]);
    let position = (span.start + 1 + width) as u64;
    let rest = LIMIT as u64 - position;
    let few = random.below(3) as u64;
    let number = random.choose(&[
        old + 1,
        old.wrapping_sub(1),
        1 << 32,
        (1 << 32) + old,
        (1 << 32) - 1,
        (1 << 32) - position + few,
        u64::MAX,
        0u64.wrapping_sub(position).wrapping_add(few),
        1 << 63,
        rest + few,
        rest.wrapping_sub(few),
        4_000_000,
        4_000_001,
        u32::MAX as u64 - few,
    ]);
    replace(bytes, span, cut_to(number, width), width);
}

/// A count beside the true one, or far from it; in any form.
fn change_a_count(bytes: &mut Vec<u8>, made: &Made, random: &mut Random) {
    let span = match some_span(made, random, |span| span.kind == Kind::Count) {
        Some(span) => span,
        None => return,
    };
    let old = number_at(bytes, span);
    let number = random.choose(&[
        old + 1,
        old.wrapping_sub(1),
        old + 2,
        253,
        65_536,
        (1 << 32) + old,
        u64::MAX,
        1 << 63,
        (1 << 32) - 1,
    ]);
    let shortest = if number < 253 { 0 } else { 8 };
    let width = random.choose(&[shortest, shortest, 2, 4, 8]);
    replace(bytes, span, cut_to(number, width), width);
}

fn cut_to(number: u64, width: usize) -> u64 {
    match width {
        0 => number & 0x7f,
        2 => number & 0xffff,
        4 => number & 0xffff_ffff,
        _ => number,
    }
}

fn spoil_vout(bytes: &mut [u8], made: &Made, random: &mut Random) {
    if let Some(span) = some_span(made, random, |span| span.field == Field::Vout) {
        let raw: u32 = random.choose(&[0, ALL_ONES, 0xbfff_ffff, 0x7fff_ffff, 0x3fff_ffff, 0x8000_0000, 0x4000_0000]);
        bytes[span.start..span.start + 4].copy_from_slice(&raw.to_le_bytes());
    }
}

/// Nulls a keys prefix; what followed it then stands as something else, but 6 comes first.
fn nullify(bytes: &mut [u8], made: &Made, random: &mut Random) {
    if let Some(span) = some_span(made, random, |span| span.field == Field::KeysPrefix) {
        bytes[span.start] = 0;
        if bytes[span.start - 1] != 0 && random.once_in(2) {
            bytes[span.start - 1] = 0;
        }
    }
}

/// Lengthens one body so that a field behind it, or the body itself, lies at the limit.
fn near_the_limit(case: &mut Case, made: &Made, sea: &mut Sea, random: &mut Random) {
    let body = match (0..made.spans.len()).find(|&at| made.spans[at].kind == Kind::Body) {
        Some(body) => body,
        None => return,
    };
    let target = match target_behind(made.spans[body], made, random) {
        Some(target) => target,
        None => return,
    };
    let mut bytes = made.bytes.clone();
    let mut target_width = target.width;
    if matches!(target.kind, Kind::Count | Kind::Length) && random.once_in(2) {
        let width = random.choose(&[2, 4, 8]);
        let number = random.choose(&[number_at(&bytes, target), 253, 65_536, 1 << 32]);
        replace(&mut bytes, target, cut_to(number, width), width);
        target_width = 1 + width;
    }
    // For counts and lengths also with further bytes, for keys also null.
    if target.field == Field::KeysPrefix && random.once_in(2) {
        bytes[target.start] = 0;
    }
    let before =
        random.choose(&[0, 1, 1, target_width, target_width, target_width - 1.min(target_width), target_width + 1]);
    let target_start = LIMIT + random.below(2) * random.below(2) - before;
    let length_field = made.spans[body - 1];
    let old = made.spans[body];
    // The body's end moves with the target; its length is written in five bytes then.
    let end = target_start - (target.start.max(old.start + old.width) - (old.start + old.width));
    let mut front = bytes[..length_field.start].to_vec();
    let position = front.len() + 5;
    put_compact_of_width(&mut front, (end - position) as u64, 4);
    let back = &bytes[old.start + old.width..];
    case.bytes = sea.lend(&front, end, back);
    case.afloat = true;
    let length = case.bytes.len();
    let at = random.choose(&[length, length, target_start, target_start + 1, LIMIT, LIMIT - 1, LIMIT + 1]);
    case.bytes.truncate(at);
}

/// Any field behind the body; now and then a null amount's keys, so that 6 and 2 meet in one byte.
fn target_behind(body: Span, made: &Made, random: &mut Random) -> Option<Span> {
    if random.once_in(8) {
        let after_null = |span: &Span| span.field == Field::KeysPrefix && made.bytes[span.start - 1] == 0;
        let keys = some_span(made, random, after_null);
        if keys.is_some() {
            return keys.filter(|span| span.start >= body.start);
        }
    }
    some_span(made, random, |span| span.start >= body.start)
}

/// Cuts: whole, byte by byte, few, many small ones with empty ones among them, or about the fields' ends.
fn cut(case: &mut Case, made: &Made, random: &mut Random) {
    case.pieces.clear();
    let length = case.bytes.len();
    let numbers = case.sizes.iter().sum::<usize>();
    if length > 100_000 {
        cut_at_the_end(case, random);
    } else if length > 3000 || numbers > 5000 {
        for _ in 0..random.below(6) {
            case.pieces.push(random.below(length + 1) / 3);
        }
    } else {
        match random.below(24) {
            0..=3 => {}
            4 => case.pieces.resize(length, 1),
            5..=8 => {
                let mut at = 0;
                while at < length {
                    let piece = random.below(40);
                    case.pieces.push(piece);
                    at += piece;
                }
            }
            9..=14 => cut_at_fields(case, made, random),
            _ => {
                for _ in 0..1 + random.below(5) {
                    case.pieces.push(random.below(length + 1) / 2);
                }
            }
        }
    }
    clip(case);
}

/// Pieces that end at, just before or just behind the ends of a few fields.
fn cut_at_fields(case: &mut Case, made: &Made, random: &mut Random) {
    let mut ends: Vec<usize> = (0..1 + random.below(8))
        .map(|_| {
            let span = made.spans[random.below(made.spans.len())];
            (span.start + span.width + random.below(3)).saturating_sub(1)
        })
        .collect();
    ends.sort_unstable();
    let mut at = 0;
    for end in ends {
        case.pieces.push(end - at);
        at = end;
    }
}

/// One long piece and then small ones, for the cases near the limit.
fn cut_at_the_end(case: &mut Case, random: &mut Random) {
    if random.once_in(2) {
        return;
    }
    let small = 1 + random.below(60);
    case.pieces.push(case.bytes.len().saturating_sub(small));
    for _ in 0..small {
        case.pieces.push(random.below(3));
    }
}

/// Pieces may not pass the bytes.
fn clip(case: &mut Case) {
    let mut left = case.bytes.len();
    for piece in &mut case.pieces {
        *piece = (*piece).min(left);
        left -= *piece;
    }
}

// ---------------------------------------------------------------------------------------------------------
// Writing.

/// What the writer is handed; `room` is the output's length.
#[derive(Clone, Debug, Default)]
pub struct Writing {
    pub head: Head,
    pub tables: [Vec<u32>; 3],
    pub source: Vec<u8>,
    pub room: usize,
}

impl Writing {
    pub fn order(&self) -> Order<'_> {
        let [inputs, outputs, items] = &self.tables;
        Order { head: &self.head, inputs, outputs, items, source: &self.source }
    }

    fn records(&self, table: usize) -> usize {
        self.head[2 + table] as usize
    }
}

/// Fills in a case from a finished reading: `tables` and `bytes` as they stand, `head` as it shows.
pub fn writing_case(case: &mut Writing, head: Head, tables: [&[u32]; 3], bytes: &[u8], random: &mut Random) {
    case.head = head;
    for table in 0..3 {
        case.tables[table].clear();
        case.tables[table].extend_from_slice(tables[table]);
    }
    case.source.clear();
    case.source.extend_from_slice(bytes);
    case.room = bytes.len();
    match random.below(4) {
        0 => scatter(case, random),
        1 => move_on(case, random),
        _ => {}
    }
    if random.once_in(2) {
        fill_what_is_not_read(case, random);
    }
    for _ in 0..random.choose(&[0, 0, 1, 1, 1, 1, 2, 2, 3]) {
        damage_tables(case, random);
    }
    if random.once_in(3) {
        let room = case.room;
        case.room = random.choose(&[0, room.saturating_sub(1), room + 1, room + 17, room / 2, room.saturating_sub(2)]);
    }
}

/// Puts junk before everything and moves every position.
fn move_on(case: &mut Writing, random: &mut Random) {
    let by = 1 + random.below(40);
    case.source.splice(0..0, (0..by).map(|_| random.draw() as u8));
    for slot in slots(case) {
        case.tables[slot.table][slot.index] += by as u32;
    }
}

/// Where a position stands in the tables, and what it is a position of.
#[derive(Clone, Copy)]
struct Slot {
    table: usize,
    index: usize,
    /// Bytes at that position.
    width: usize,
    /// The first is a prefix, which the writer doesn't read.
    prefixed: bool,
}

/// Every position in use.
fn slots(case: &Writing) -> Vec<Slot> {
    let mut slots = Vec::new();
    let witness = case.head[1] == 1;
    for record in 0..case.records(INPUTS) {
        let at = record * INPUT;
        let numbers = &case.tables[INPUTS][at..at + INPUT];
        slots.push(Slot { table: INPUTS, index: at, width: PART, prefixed: false });
        slots.push(Slot { table: INPUTS, index: at + 3, width: numbers[4] as usize, prefixed: false });
        if numbers[2] & ISSUANCE != 0 {
            let width = 64 + width_of_value(numbers[7]) + width_of_value(numbers[10]);
            slots.push(Slot { table: INPUTS, index: at + 6, width, prefixed: false });
        }
        for number in [13, 15].into_iter().filter(|_| witness) {
            let width = numbers[number + 1] as usize;
            slots.push(Slot { table: INPUTS, index: at + number, width, prefixed: false });
        }
    }
    for record in 0..case.records(OUTPUTS) {
        let at = record * OUTPUT;
        let numbers = &case.tables[OUTPUTS][at..at + OUTPUT];
        for number in [0, 2, 6].into_iter().filter(|&number| numbers[number] > (number == 2) as u32) {
            slots.push(Slot { table: OUTPUTS, index: at + number + 1, width: 1 + PART, prefixed: true });
        }
        for number in [8, 10, 12].into_iter().filter(|&number| witness || number == 8) {
            let width = numbers[number + 1] as usize;
            slots.push(Slot { table: OUTPUTS, index: at + number, width, prefixed: false });
        }
    }
    for record in 0..case.records(ITEMS) {
        let width = case.tables[ITEMS][record * ITEM + 1] as usize;
        slots.push(Slot { table: ITEMS, index: record * ITEM, width, prefixed: false });
    }
    slots
}

fn width_of_value(prefix: u32) -> usize {
    match prefix {
        0 => 1,
        1 => 9,
        _ => 33,
    }
}

/// Lays every body at another place of a new source, in another order, with gaps.
fn scatter(case: &mut Writing, random: &mut Random) {
    let mut slots = slots(case);
    if !slots.is_empty() {
        let by = random.below(slots.len());
        slots.rotate_left(by);
    }
    let mut source = Vec::new();
    for slot in slots {
        for _ in 0..random.below(3) {
            source.push(random.draw() as u8);
        }
        let position = case.tables[slot.table][slot.index] as usize;
        case.tables[slot.table][slot.index] = source.len() as u32;
        source.extend_from_slice(&case.source[position..position + slot.width]);
        let at = source.len() - slot.width;
        if slot.prefixed {
            source[at] = random.draw() as u8;
        }
        if slot.table == INPUTS && slot.index % INPUT == 6 {
            let numbers = &case.tables[INPUTS][slot.index - 6..][..INPUT];
            let keys = at + 64 + width_of_value(numbers[7]);
            for (start, prefix) in [(at + 64, numbers[7]), (keys, numbers[10])] {
                // Prefixes and explicit amounts come from the record, so other bytes may stand here.
                let unread = if prefix == 1 { 9 } else { 1 };
                source[start..start + unread].fill(random.draw() as u8);
            }
        }
    }
    case.source = source;
}

/// Junk behind the counts, in the head's length, and in the positions that aren't read.
fn fill_what_is_not_read(case: &mut Writing, random: &mut Random) {
    case.head[6] = random.draw() as u32;
    for table in 0..3 {
        let end = case.records(table) * WIDTHS[table];
        for _ in 0..random.choose(&[0, 1, WIDTHS[table]]) {
            case.tables[table].push(0);
        }
        for number in &mut case.tables[table][end..] {
            *number = random.draw() as u32;
        }
    }
    for record in 0..case.records(OUTPUTS) {
        let numbers = &mut case.tables[OUTPUTS][record * OUTPUT..][..OUTPUT];
        for number in [0, 2, 6] {
            if numbers[number] == 0 || number == 2 && numbers[number] == 1 {
                numbers[number + 1] = random.draw() as u32;
            }
        }
    }
}

/// One cause of one of the writer's refusals, or something that looks like one.
fn damage_tables(case: &mut Writing, random: &mut Random) {
    match random.below(20) {
        0 => case.head[1] = random.choose(&[0, 1, 1 - case.head[1].min(1), 2, 3, 256, 257, u32::MAX]),
        1 | 2 => {
            let count = 2 + random.below(3);
            let old = case.head[count];
            case.head[count] = random.choose(&[old + 1, old + 1, old.saturating_sub(1), u32::MAX, old + 2]);
        }
        3 => set(case, INPUTS, &[2], &[0, 1, 2, 3, 4, 5, 6, 256, 1 << 31, u32::MAX], random),
        4 | 5 => {
            let vouts = [0, VOUT_END - 2, VOUT_END - 1, VOUT_END, 1 << 31, u32::MAX - 1, ALL_ONES, ALL_ONES];
            set(case, INPUTS, &[1], &vouts, random);
            if random.once_in(2) {
                set(case, INPUTS, &[2], &[0, 1, 2, 3], random);
            }
        }
        6 | 7 => set_small(case, INPUTS, &[6, 7, 8, 9, 10, 11, 12], random),
        8 | 9 => set_small(case, INPUTS, &[13, 14, 15, 16, 17, 18, 19], random),
        10 | 11 => set_small(case, OUTPUTS, &[0, 1, 2, 3, 4, 5, 6, 7, 8, 9, 10, 11, 12, 13], random),
        12 => set_small(case, ITEMS, &[0, 1], random),
        13 | 14 => at_the_sources_end(case, random),
        15 => {
            let length = case.source.len();
            case.source.truncate(random.choose(&[length.saturating_sub(1), length.saturating_sub(2), length / 2, 0]));
        }
        16 => null_issuance(case, random),
        17 if random.once_in(2) => flag_off(case, random),
        17 => empty_witnesses(case),
        18 => wrap_the_sum(case, random),
        _ => {
            if let Some(number) = some_number(case, INPUTS, &[17], random) {
                *number = number.wrapping_add(random.choose(&[1, u32::MAX]));
            }
        }
    }
}

/// One of these numbers of a random record.
fn some_number<'a>(case: &'a mut Writing, table: usize, numbers: &[usize], random: &mut Random) -> Option<&'a mut u32> {
    let records = case.tables[table].len() / WIDTHS[table];
    if records == 0 {
        return None;
    }
    let record = random.below(records.min(case.records(table).max(1)));
    let number = random.choose(numbers);
    case.tables[table].get_mut(record * WIDTHS[table] + number)
}

fn set(case: &mut Writing, table: usize, numbers: &[usize], to: &[u32], random: &mut Random) {
    let to = random.choose(to);
    if let Some(number) = some_number(case, table, numbers, random) {
        *number = to;
    }
}

fn set_small(case: &mut Writing, table: usize, numbers: &[usize], random: &mut Random) {
    let length = case.source.len() as u32;
    let any = random.draw() as u32;
    let to = [0, 1, 2, 3, 4, 7, 8, 9, 10, 11, 12, 255, 256, 257, u32::MAX, length, length + 1, any];
    set(case, table, numbers, &to, random);
}

/// Moves one field so that it ends at the source's end, one before or one behind it, or wraps past 2^32.
fn at_the_sources_end(case: &mut Writing, random: &mut Random) {
    // An earlier damage may have made the counts senseless.
    if (0..3).any(|table| case.records(table) > case.tables[table].len() / WIDTHS[table]) {
        return;
    }
    let slots = slots(case);
    if slots.is_empty() {
        return;
    }
    let slot = slots[random.below(slots.len())];
    let end = case.source.len() as u64 + random.choose(&[0, 1, 1, (1 << 32) - 1, 1 << 32]);
    let position = end.wrapping_sub(random.choose(&[0, 1]) * (end > 1 << 31) as u64).wrapping_sub(slot.width as u64);
    case.tables[slot.table][slot.index] = position as u32;
}

fn null_issuance(case: &mut Writing, random: &mut Random) {
    if case.records(INPUTS) == 0 || case.tables[INPUTS].len() < case.records(INPUTS).saturating_mul(INPUT) {
        return;
    }
    let record = random.below(case.records(INPUTS));
    let numbers = &mut case.tables[INPUTS][record * INPUT..][..INPUT];
    numbers[2] |= ISSUANCE;
    numbers[7..13].fill(0);
}

fn empty_witnesses(case: &mut Writing) {
    case.head[4] = 0;
    for record in case.tables[INPUTS].chunks_exact_mut(INPUT) {
        for number in [14, 16, 17, 18, 19] {
            record[number] = 0;
        }
    }
    for record in case.tables[OUTPUTS].chunks_exact_mut(OUTPUT) {
        record[11] = 0;
        record[13] = 0;
    }
}

/// Flag 0 and no witness numbers, but items are still counted; sometimes their records are 0 too.
fn flag_off(case: &mut Writing, random: &mut Random) {
    case.head[1] = 0;
    for record in case.tables[INPUTS].chunks_exact_mut(INPUT) {
        record[13..].fill(0);
    }
    for record in case.tables[OUTPUTS].chunks_exact_mut(OUTPUT) {
        record[10..].fill(0);
    }
    if random.once_in(3) {
        case.tables[ITEMS].fill(0);
    }
}

/// Adds 2^32 to the items of a record: the same sum for someone who adds in 32 bits.
fn wrap_the_sum(case: &mut Writing, random: &mut Random) {
    if case.records(INPUTS) == 0 || case.tables[INPUTS].len() < case.records(INPUTS).saturating_mul(INPUT) {
        return;
    }
    let record = random.below(case.records(INPUTS));
    let numbers = &mut case.tables[INPUTS][record * INPUT..][..INPUT];
    let items = numbers[18].wrapping_add(numbers[19]);
    if items < u32::MAX {
        numbers[18] = u32::MAX;
        numbers[19] = items + 1;
    }
}

/// Makes the written length lie at the limit: one body becomes long, in a source of zeros.
pub fn long_writing(case: &mut Writing, written: usize, random: &mut Random) {
    let bodies: Vec<Slot> = slots(case)
        .into_iter()
        .filter(|slot| match slot.table {
            INPUTS => [3, 13, 15].contains(&(slot.index % INPUT)),
            OUTPUTS => slot.index % OUTPUT >= 8,
            _ => true,
        })
        .collect();
    if bodies.is_empty() {
        return;
    }
    let slot = bodies[random.below(bodies.len())];
    let old_width = if slot.width < 253 {
        1
    } else if slot.width < 65_536 {
        3
    } else {
        5
    };
    let wanted = LIMIT + random.choose(&[0, 1, 1, 2]) - random.choose(&[0, 0, 1]);
    let length = wanted - (written - slot.width - old_width) - 5;
    case.tables[slot.table][slot.index + 1] = length as u32;
    case.tables[slot.table][slot.index] = random.below(20) as u32;
    case.source.resize(length + 20, 0);
    // Mostly no room at all, since a written output of this length costs much.
    case.room = if random.once_in(8) { random.choose(&[wanted, wanted - 1, LIMIT]) } else { 0 };
    if random.once_in(3) {
        case.head[1] = 1;
        empty_witnesses(case);
    }
}
