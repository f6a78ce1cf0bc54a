//! The paper's finer points, each by its smallest input: on the plain forms and the fast ones, and with the
//! feature `archive` on the library.

use compare::forms::{Feeds, Resume};
use compare::generate::{Kind, Made, Random, Span};
use compare::paper::*;
use compare::plain::{self, Feeding};
use compare::slips::Slip;
use compare::tables::Tables;
use compare::{whole, writer};

// ---------------------------------------------------------------------------------------------------------
// Reading.

fn tables(sizes: [usize; 3]) -> Tables {
    let mut tables = Tables::default();
    tables.prepare(sizes);
    tables
}

/// Answer, place and bytes taken of reading at once, in every form.
fn read(bytes: &[u8], sizes: [usize; 3]) -> (usize, usize, usize) {
    let reading = plain::read(bytes, sizes, Slip::None);
    let outcome = plain::read_at_once(&reading, bytes.len(), &mut tables(sizes).lent(), false, Slip::None);
    assert_eq!(outcome, whole::read(bytes, &mut tables(sizes).lent(), false), "whole");
    let mut lent = tables(sizes);
    let state = Resume::fresh(&mut lent.lent());
    let (state, pushed) = Resume::push(state, bytes, &mut lent.lent());
    let (_, ended) = Resume::end(state, &mut lent.lent());
    assert_eq!(outcome, Outcome { taken: pushed.taken, ..ended }, "resume");
    #[cfg(feature = "archive")]
    {
        use compare::archive::Archive;
        assert_eq!(
            outcome,
            <Archive as compare::forms::Reads>::read(bytes, &mut tables(sizes).lent(), false),
            "archive"
        );
    }
    (outcome.answer, outcome.place, outcome.taken)
}

/// Version, flag, one input up to and with its raw vout: 42 bytes.
fn up_to_vout(flag: u8, raw: u32) -> Vec<u8> {
    let mut bytes = vec![2, 0, 0, 0, flag, 1];
    bytes.extend([0x11; 32]);
    bytes.extend(raw.to_le_bytes());
    bytes
}

/// The same with a script so long that the sequence ends at `end`.
fn up_to_sequence(flag: u8, raw: u32, end: usize) -> Vec<u8> {
    let mut bytes = up_to_vout(flag, raw);
    bytes.push(254);
    bytes.extend(((end - 4 - 47) as u32).to_le_bytes());
    bytes.resize(end, 0);
    bytes
}

#[test]
fn each_layout_item_is_a_field_of_its_own() {
    // An explicit amount that passes the limit is placed behind its prefix.
    let mut bytes = up_to_sequence(0, 0x8000_0000, 3_999_992 - 64);
    bytes.extend([0; 64]);
    bytes.push(1);
    assert_eq!(read(&bytes, [20, 0, 0]), (2, 3_999_993, 3_999_993));
    // The entropy is placed behind the blinding nonce.
    let mut bytes = up_to_sequence(0, 0x8000_0000, LIMIT - 33);
    bytes.extend([0; 32]);
    assert_eq!(read(&bytes, [20, 0, 0]), (2, LIMIT - 1, LIMIT - 1));
}

#[test]
fn counts_near_the_limit() {
    // No byte left for the output count.
    let bytes = up_to_sequence(0, 0, LIMIT);
    assert_eq!(read(&bytes, [20, 0, 0]), (2, LIMIT, LIMIT));
    // Its further bytes pass the limit, and aren't waited for; that the form may not be the shortest comes later.
    let mut bytes = up_to_sequence(0, 0, LIMIT - 2);
    bytes.extend([253, 0, 0]);
    assert_eq!(read(&bytes, [20, 0, 0]), (2, LIMIT - 2, LIMIT - 1));
    assert_eq!(read(&bytes[..LIMIT - 1], [20, 0, 0]), (2, LIMIT - 2, LIMIT - 1));
    let mut bytes = up_to_sequence(0, 0, LIMIT - 3);
    bytes.extend([253, 0, 0]);
    assert_eq!(read(&bytes, [20, 0, 0]), (3, LIMIT - 3, LIMIT));
}

#[test]
fn the_ended_field_comes_before_the_next() {
    // A null issuance's last byte is the limit's: 6, not 2 for the output count.
    let mut bytes = up_to_sequence(0, 0x8000_0000, LIMIT - 66);
    bytes.extend([0; 66]);
    assert_eq!(read(&bytes, [20, 0, 0]), (6, LIMIT - 66, LIMIT));
    // A stack's count with no item record left: 4, not 2 for the item's length.
    let mut bytes = up_to_sequence(1, 0, LIMIT - 8);
    bytes.extend([0, 0, 0, 0, 0, 0, 0, 1]);
    assert_eq!(read(&bytes, [20, 0, 0]), (4, LIMIT - 1, LIMIT));
    assert_eq!(read(&bytes, [20, 0, 2]), (2, LIMIT, LIMIT));
}

#[test]
fn an_empty_body_at_the_limit() {
    // The last byte allowed is the range proof's length: its body has the limit as its position and doesn't pass it.
    let mut bytes = up_to_sequence(1, 0, LIMIT - 16);
    bytes.extend([1, 0, 0, 0, 0]);
    bytes.extend([0; 4]);
    bytes.extend([0, 0, 1, 0, 0]);
    bytes.extend([0, 0]);
    assert_eq!(read(&bytes, [20, 14, 2]), (0, 0, LIMIT));
    let mut lent = tables([20, 14, 2]);
    assert_eq!(whole::read(&bytes, &mut lent.lent(), true).answer, 0);
    assert_eq!(lent.table(OUTPUTS)[12..], [LIMIT as u32, 0]);
}

#[test]
fn a_bad_flag_waits_for_the_locktime() {
    assert_eq!(read(&[2, 0, 0, 0, 2, 0, 0, 0, 0, 0], [0; 3]), (1, 10, 10));
    assert_eq!(read(&[2, 0, 0, 0, 2, 0, 0, 0, 0, 0, 0, 0], [0; 3]), (7, 4, 11));
    assert_eq!(read(&[2, 0, 0, 0, 2, 1], [0; 3]), (4, 5, 6));
    assert_eq!(read(&[2, 0, 0, 0, 1, 0, 0, 0, 0, 0, 0, 9], [0; 3]), (8, 4, 11));
}

#[test]
fn calls_after_the_end() {
    let eleven = [2, 0, 0, 0, 0, 0, 0, 0, 0, 0, 0];
    let sizes = [21, 14, 2];
    let mut lent = tables(sizes);
    let state = Resume::fresh(&mut lent.lent());
    let reading = plain::read(&eleven, sizes, Slip::None);
    let mut model_lent = tables(sizes);
    let mut model = Feeding::fresh(&reading, &mut model_lent.lent(), Slip::None);
    // The same whole records, but another size in numbers.
    let (state, outcome) = Resume::push(state, &eleven, &mut lent.lent_of([20, 14, 2]));
    assert_eq!(outcome, Outcome::headless(10, 0, 0));
    assert_eq!(outcome, model.push(11, &mut model_lent.lent_of([20, 14, 2])));
    let (state, outcome) = Resume::push(state, &eleven, &mut lent.lent());
    assert_eq!((outcome.answer, outcome.taken, outcome.head), (0, 11, [2, 0, 0, 0, 0, 0, 11]));
    assert_eq!(outcome, model.push(11, &mut model_lent.lent()));
    // A finished one leaves what the caller put into the tables, and shows its head again.
    lent.lent().inputs[3] = 7;
    model_lent.lent().inputs[3] = 7;
    let (state, outcome) = Resume::push(state, &[1], &mut lent.lent());
    assert_eq!((outcome.answer, outcome.taken, outcome.head), (0, 0, [2, 0, 0, 0, 0, 0, 11]));
    assert_eq!(outcome, model.push(1, &mut model_lent.lent()));
    let (_, outcome) = Resume::end(state, &mut lent.lent());
    assert_eq!((outcome.answer, outcome.head), (0, [2, 0, 0, 0, 0, 0, 11]));
    assert_eq!((lent.table(INPUTS)[3], outcome), (7, model.end(&mut model_lent.lent())));
    assert_eq!(model_lent.table(INPUTS)[3], 7);
}

#[test]
fn calls_after_a_refusal() {
    let ten = [2, 0, 0, 0, 0, 0, 0, 0, 0, 0];
    let mut lent = tables([20, 14, 2]);
    let state = Resume::fresh(&mut lent.lent());
    let (state, outcome) = Resume::push(state, &ten, &mut lent.lent());
    assert_eq!(outcome, Outcome::headless(MORE, 0, 10));
    let (state, outcome) = Resume::end(state, &mut lent.lent());
    assert_eq!(outcome, Outcome::headless(1, 10, 0));
    // The reading has ended: the missing byte comes too late. Even an empty piece zeroes the tables again.
    lent.lent().items[1] = 5;
    let (state, outcome) = Resume::push(state, &[], &mut lent.lent());
    assert_eq!((outcome, lent.table(ITEMS)[1]), (Outcome::headless(1, 10, 0), 0));
    lent.lent().items[1] = 5;
    let (state, outcome) = Resume::push(state, &[0], &mut lent.lent_of([20, 14, 1]));
    assert_eq!((outcome, lent.table(ITEMS)[1]), (Outcome::headless(10, 0, 0), 5));
    let (_, outcome) = Resume::push(state, &[0], &mut lent.lent());
    assert_eq!((outcome, lent.table(ITEMS)[1]), (Outcome::headless(1, 10, 0), 0));
}

#[test]
fn first_index_without_items() {
    // Two inputs; the first has one item, the second none: its first index is the sum all the same.
    let mut bytes = vec![2, 0, 0, 0, 1, 2];
    bytes.extend([0; 82]);
    bytes.push(0);
    bytes.extend([0; 4]);
    bytes.extend([0, 0, 1, 0, 0]);
    bytes.extend([0, 0, 0, 0]);
    let mut lent = tables([40, 0, 2]);
    assert_eq!(whole::read(&bytes, &mut lent.lent(), true).answer, 0);
    assert_eq!(lent.table(INPUTS)[37], 1);
    assert_eq!(read(&bytes, [40, 0, 2]), (0, 0, bytes.len()));
}

// ---------------------------------------------------------------------------------------------------------
// Writing.

const IN: [u32; INPUT] = [0; INPUT];
const OUT: [u32; OUTPUT] = [0; OUTPUT];

/// A record with some numbers set.
fn with<const N: usize>(mut record: [u32; N], numbers: &[(usize, u32)]) -> [u32; N] {
    for &(at, number) in numbers {
        record[at] = number;
    }
    record
}

/// Answer and place of the writer, flag and item count given, with room for everything.
fn write(
    flag: u32,
    inputs: &[[u32; INPUT]],
    outputs: &[[u32; OUTPUT]],
    items: &[[u32; 2]],
    source: usize,
) -> (usize, usize) {
    let head = [0, flag, inputs.len() as u32, outputs.len() as u32, items.len() as u32, 0, 0];
    let source = vec![0x77; source];
    let (inputs, outputs, items) = (inputs.concat(), outputs.concat(), items.concat());
    let order = Order { head: &head, inputs: &inputs, outputs: &outputs, items: &items, source: &source };
    let written = plain::written_length(&order, Slip::None);
    assert_eq!(written, writer::written_length(&order));
    #[cfg(feature = "archive")]
    assert_eq!(written, <compare::archive::Archive as compare::forms::Writes>::written_length(&order), "archive");
    (written.answer, written.place)
}

#[test]
fn records_count_from_zero() {
    assert_eq!(write(0, &[with(IN, &[(2, 4)])], &[], &[], 32), (13, 0));
    assert_eq!(write(0, &[IN, with(IN, &[(2, 4)])], &[], &[], 32), (13, 1));
    // Record after record: the first one's 12 comes before the second one's 13.
    assert_eq!(write(0, &[with(IN, &[(1, VOUT_END)]), with(IN, &[(2, 4)])], &[], &[], 32), (12, 0));
    // Within one, all of 13 comes first.
    assert_eq!(write(1, &[with(IN, &[(1, VOUT_END), (17, 1)])], &[], &[], 32), (13, 0));
}

#[test]
fn items_with_flag_0() {
    assert_eq!(write(0, &[IN, IN], &[], &[[0, 1]], 32), (13, 0));
    assert_eq!(write(0, &[IN, IN], &[], &[[0, 0]], 32), (13, 2));
    assert_eq!(write(0, &[IN, IN], &[], &[], 32), (0, 0));
}

#[test]
fn positions() {
    // An empty body's position is read.
    assert_eq!(write(0, &[], &[with(OUT, &[(8, 1)])], &[], 0), (13, 0));
    assert_eq!(write(0, &[], &[with(OUT, &[(8, 1)])], &[], 1), (0, 0));
    // Those of null fields and of an output's explicit value aren't.
    assert_eq!(write(0, &[], &[with(OUT, &[(1, 9), (3, 9), (7, 9)])], &[], 0), (0, 0));
    assert_eq!(write(0, &[], &[with(OUT, &[(2, 1), (3, u32::MAX), (4, 1)])], &[], 0), (0, 0));
    // A part needs its prefix's byte and 32 more.
    for (number, prefix) in [(0, 10), (2, 9), (6, 3)] {
        assert_eq!(write(0, &[], &[with(OUT, &[(number, prefix)])], &[], 33), (0, 0));
        assert_eq!(write(0, &[], &[with(OUT, &[(number, prefix)])], &[], 32), (13, 0));
    }
    // An issuance has to lie in the source as a whole: 64, explicit amount 9, null keys 1.
    let issuance = with(IN, &[(2, 2), (7, 1), (9, 5)]);
    assert_eq!(write(0, &[issuance], &[], &[], 73), (13, 0));
    assert_eq!(write(0, &[issuance], &[], &[], 74), (0, 0));
    // Nothing wraps at 2^32.
    assert_eq!(write(0, &[with(IN, &[(3, u32::MAX), (4, 1)])], &[], &[], 32), (13, 0));
}

#[test]
fn outpoints() {
    for (vout, flags, answer) in [
        (ALL_ONES, 0, 0),
        (ALL_ONES, 1, 12),
        (VOUT_END - 1, 0, 0),
        (VOUT_END - 1, 1, 0),
        (VOUT_END, 0, 12),
        (0x8000_0000, 0, 12),
        (ALL_ONES - 1, 0, 12),
    ] {
        assert_eq!(write(0, &[with(IN, &[(1, vout), (2, flags)])], &[], &[], 32), (answer, 0));
    }
    let issuing = |vout, flags, amount| with(IN, &[(1, vout), (2, flags), (7, amount)]);
    assert_eq!(write(0, &[issuing(VOUT_END - 1, 3, 8)], &[], &[], 98), (12, 0));
    assert_eq!(write(0, &[issuing(VOUT_END - 1, 2, 8)], &[], &[], 98), (0, 0));
    // 12 before 6, and 6 alone.
    assert_eq!(write(0, &[issuing(ALL_ONES, 2, 0)], &[], &[], 98), (12, 0));
    assert_eq!(write(0, &[IN, issuing(0, 2, 0)], &[], &[], 98), (6, 1));
}

#[test]
fn sums_of_items() {
    // The sum passes 2^32: no first index can equal it.
    let huge = with(IN, &[(18, u32::MAX), (19, 1)]);
    assert_eq!(write(1, &[huge, IN], &[], &[], 32), (13, 1));
    assert_eq!(write(1, &[huge], &[], &[], 32), (13, 1));
    // More script items than the table has: the item records are judged first, then the sum.
    let five = with(IN, &[(18, 5)]);
    assert_eq!(write(1, &[five], &[], &[[0, 0], [0, 33]], 32), (13, 1));
    assert_eq!(write(1, &[five], &[], &[[0, 33], [0, 0]], 32), (13, 0));
    assert_eq!(write(1, &[with(IN, &[(18, 1), (19, 1)])], &[], &[[0, 0], [32, 0]], 32), (0, 0));
    assert_eq!(write(1, &[], &[], &[[0, 0]], 0), (13, 0));
}

#[test]
fn whole_orders() {
    assert_eq!(write(256, &[], &[], &[], 0), (7, 4));
    assert_eq!(write(1, &[], &[], &[], 0), (8, 4));
    // 8 before 2: too long and without a witness.
    let long = with(OUT, &[(9, LIMIT as u32)]);
    assert_eq!(write(1, &[], &[long], &[], LIMIT), (8, 4));
    assert_eq!(write(0, &[], &[long], &[], LIMIT), (2, 0));
    // Version, flag, two counts, three null prefixes, a five-byte length, locktime: 19 and the script.
    assert_eq!(write(0, &[], &[with(OUT, &[(9, LIMIT as u32 - 19)])], &[], LIMIT), (0, 0));
    assert_eq!(write(0, &[], &[with(OUT, &[(9, LIMIT as u32 - 18)])], &[], LIMIT), (2, 0));
    // 10 compares with whole records and comes before 7.
    let order = Order { head: &[0, 2, 1, 0, 0, 0, 0], inputs: &[0; 19], outputs: &[], items: &[], source: &[] };
    assert_eq!(plain::written_length(&order, Slip::None), Written { answer: 10, place: 0, length: 0 });
    assert_eq!(writer::written_length(&order), Written { answer: 10, place: 0, length: 0 });
}

#[test]
fn the_record_decides_about_the_prefix() {
    let source = [10; 33];
    let outputs = with(OUT, &[(0, 1)]);
    let order = Order { head: &[0, 0, 0, 1, 0, 0, 0], inputs: &[], outputs: &outputs, items: &[], source: &source };
    let (mut paper, mut quick) = ([0xee; 50], [0xee; 50]);
    let (written, _) = plain::write(&order, &mut paper, Slip::None);
    assert_eq!((written, writer::write(&order, &mut quick)), (Written { answer: 0, place: 0, length: 47 }, written));
    assert_eq!((paper[7], paper[8], paper), (1, 10, quick));
    assert_eq!(paper[47..], [0xee; 3]);
    // One byte too few: 14, and nothing is touched.
    let mut short = [0xee; 46];
    let refused = Written { answer: 14, place: 0, length: 0 };
    assert_eq!(plain::write(&order, &mut short, Slip::None).0, refused);
    assert_eq!((writer::write(&order, &mut short), short), (refused, [0xee; 46]));
}

// ---------------------------------------------------------------------------------------------------------
// Bearing bytes.

/// Whether a field's bytes are bearing: all are but hashes, 32-byte parts and bodies.
fn is_bearing(span: &Span) -> bool {
    use compare::log::Field::*;
    let parts = [Txid, BlindingNonce, Entropy, AmountCommitment, KeysCommitment, AssetPart, ValueCommitment, NoncePart];
    span.kind != Kind::Body && !parts.contains(&span.field)
}

#[test]
fn twins_are_read_alike() {
    let mut random = Random::seeded(7);
    let mut made = Made::default();
    for _ in 0..2000 {
        made.again(&mut random);
        let sizes = [0, 1, 2].map(|table| made.counts[table] * WIDTHS[table]);
        let mut twin = made.bytes.clone();
        for span in made.spans.iter().filter(|span| !is_bearing(span)) {
            for byte in &mut twin[span.start..span.start + span.width] {
                *byte = random.draw() as u8;
            }
        }
        // Also cut off somewhere, at the same length.
        let length = random.below(twin.len() * 2).min(twin.len());
        let reading = plain::read(&made.bytes[..length], sizes, Slip::None);
        assert_eq!(reading, plain::read(&twin[..length], sizes, Slip::None));
        let (mut one, mut two) = (tables(sizes), tables(sizes));
        let outcome = whole::read(&made.bytes[..length], &mut one.lent(), false);
        assert_eq!(outcome, whole::read(&twin[..length], &mut two.lent(), false));
        assert!(one.equal(&two));
    }
}
