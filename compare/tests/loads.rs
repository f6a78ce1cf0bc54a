//! Document 01's "Loads to try", with the values it gives, on the plain, the whole and the resumable reader,
//! and with the feature `archive` on the library.

use compare::forms::{Feeds, Reads, Resume, Whole};
use compare::paper::*;
use compare::plain::{self, Feeding};
use compare::slips::Slip;
use compare::tables::Tables;
use compare::writer;

/// What a reading showed: the outcome and the three tables.
#[derive(PartialEq, Eq, Debug, Clone)]
struct Shown {
    answer: usize,
    place: usize,
    taken: usize,
    head: Head,
    tables: [Vec<u32>; 3],
}

fn shown(outcome: Outcome, taken: usize, tables: &Tables) -> Shown {
    let Outcome { answer, place, head, .. } = outcome;
    Shown { answer, place, taken, head, tables: [0, 1, 2].map(|table| tables.table(table).to_vec()) }
}

fn prepared(records: [usize; 3]) -> Tables {
    let mut tables = Tables::default();
    tables.prepare([0, 1, 2].map(|table| records[table] * WIDTHS[table]));
    tables
}

fn plainly(bytes: &[u8], records: [usize; 3], strict: bool) -> Shown {
    let mut tables = prepared(records);
    let sizes = tables.lent().sizes();
    let reading = plain::read(bytes, sizes, Slip::None);
    let outcome = plain::read_at_once(&reading, bytes.len(), &mut tables.lent(), strict, Slip::None);
    shown(outcome, outcome.taken, &tables)
}

fn at_once<R: Reads>(bytes: &[u8], records: [usize; 3], strict: bool) -> Shown {
    let mut tables = prepared(records);
    let outcome = R::read(bytes, &mut tables.lent(), strict);
    shown(outcome, outcome.taken, &tables)
}

/// Fed in pieces of one length, then finished.
fn fed<F: Feeds>(bytes: &[u8], records: [usize; 3], piece: usize) -> Shown {
    let mut tables = prepared(records);
    let mut state = F::fresh(&mut tables.lent());
    let mut taken = 0;
    for piece in bytes.chunks(piece) {
        let outcome;
        (state, outcome) = F::push(state, piece, &mut tables.lent());
        taken += outcome.taken;
    }
    let (_, outcome) = F::end(state, &mut tables.lent());
    assert_eq!(outcome.taken, 0);
    shown(outcome, taken, &tables)
}

/// Reads in every form, which have to agree, and gives what they show.
fn read(bytes: &[u8], records: [usize; 3]) -> Shown {
    let shown = plainly(bytes, records, false);
    assert_eq!(shown, at_once::<Whole>(bytes, records, false), "whole");
    #[cfg(feature = "archive")]
    assert_eq!(shown, at_once::<compare::archive::Archive>(bytes, records, false), "archive");
    let mut pieces = vec![bytes.len().max(1), 65_536, 7];
    pieces.extend((bytes.len() < 100_000).then_some(1));
    for piece in pieces {
        assert_eq!(shown, fed::<Resume>(bytes, records, piece), "resume, pieces of {piece}");
        #[cfg(feature = "archive")]
        assert_eq!(shown, fed::<compare::archive::Archive>(bytes, records, piece), "archive, pieces of {piece}");
    }
    shown
}

fn read_strict(bytes: &[u8], records: [usize; 3]) -> Shown {
    let shown = plainly(bytes, records, true);
    assert_eq!(shown, at_once::<Whole>(bytes, records, true), "whole");
    #[cfg(feature = "archive")]
    assert_eq!(shown, at_once::<compare::archive::Archive>(bytes, records, true), "archive");
    shown
}

fn refused(shown: &Shown, number: usize, place: usize) {
    assert_eq!((shown.answer, shown.place), (number, place));
    assert_eq!(shown.head, [0; 7]);
    assert!(shown.tables.iter().flatten().all(|&number| number == 0));
}

fn hex(text: &str) -> Vec<u8> {
    let digits: Vec<u32> = text.chars().filter_map(|digit| digit.to_digit(16)).collect();
    digits.chunks(2).map(|pair| (pair[0] * 16 + pair[1]) as u8).collect()
}

const ROOM: [usize; 3] = [3, 3, 3];

/// Version, flag, one input up to and with its raw vout.
fn up_to_vout(flag: u8, raw: u32) -> Vec<u8> {
    let mut bytes = hex("02000000");
    bytes.push(flag);
    bytes.push(1);
    bytes.extend([0x11; 32]);
    bytes.extend(raw.to_le_bytes());
    bytes
}

/// The 96-byte load.
fn one_and_one(flag: u8) -> Vec<u8> {
    let mut bytes = up_to_vout(flag, 0);
    bytes.push(0);
    bytes.extend(0xffff_fffe_u32.to_le_bytes());
    bytes.push(1);
    bytes.push(1);
    bytes.extend([0x22; 32]);
    bytes.push(1);
    bytes.extend(400u64.to_be_bytes());
    bytes.extend([0, 0]);
    bytes.extend([0; 4]);
    bytes
}

#[test]
fn eleven_bytes() {
    let eleven = hex("02000000 00 00 00 00000000");
    let shown = read(&eleven, ROOM);
    assert_eq!((shown.answer, shown.place, shown.taken), (0, 0, 11));
    assert_eq!(shown.head, [2, 0, 0, 0, 0, 0, 11]);
    assert!(shown.tables.iter().flatten().all(|&number| number == 0));
    refused(&read(&hex("02000000 01 00 00 00000000"), ROOM), 8, 4);
    refused(&read(&hex("02000000 02 00 00 00000000"), ROOM), 7, 4);
    refused(&read(&eleven[..10], ROOM), 1, 10);
    refused(&read(&[], ROOM), 1, 0);
    let mut twelve = eleven.clone();
    twelve.push(0);
    assert_eq!(read(&twelve, ROOM).answer, 0);
    let strict = read_strict(&twelve, ROOM);
    refused(&strict, 9, 11);
    assert_eq!(strict.taken, 11);
    assert_eq!(read_strict(&eleven, ROOM).answer, 0);
}

/// A script's length field, and then as many bytes as wanted.
fn script_length(field: &str, body: usize) -> Shown {
    let mut bytes = up_to_vout(0, 0);
    bytes.extend(hex(field));
    bytes.resize(bytes.len() + body, 0x33);
    bytes.extend([0; 4]);
    bytes.push(0);
    bytes.extend([0; 4]);
    read(&bytes, ROOM)
}

#[test]
fn lengths() {
    for (field, length) in [("fc", 252), ("fdfd00", 253), ("fe00000100", 65_536)] {
        let shown = script_length(field, length);
        assert_eq!(shown.answer, 0);
        assert_eq!(shown.tables[INPUTS][3..5], [(42 + field.len() / 2) as u32, length as u32]);
    }
    for field in ["fdfc00", "feffff0000", "ffffffffff00000000"] {
        refused(&script_length(field, 10), 3, 42);
    }
    for field in ["ffffffffffffffffff", "ff0000000001000000", "ffcdffffffffffffff", "feffffffff"] {
        refused(&script_length(field, 10), 2, 42);
    }
}

#[test]
fn raw_vouts() {
    for (raw, vout, flags) in [
        (0xffff_ffff, 0xffff_ffff, 0),
        (0xbfff_ffff, 0x3fff_ffff, 2),
        (0x7fff_ffff, 0x3fff_ffff, 1),
        (0xc000_0001, 1, 3),
    ] {
        let mut bytes = up_to_vout(0, raw);
        bytes.push(0);
        bytes.extend([0; 4]);
        if flags & 2 != 0 {
            bytes.extend([0x44; 64]);
            bytes.push(1);
            bytes.extend(hex("0102030405060708"));
            bytes.push(0);
        }
        bytes.push(0);
        bytes.extend([0; 4]);
        let shown = read(&bytes, ROOM);
        assert_eq!(shown.answer, 0);
        let halves = if flags & 2 != 0 { [47, 1, 0x0102_0304, 0x0506_0708] } else { [0; 4] };
        assert_eq!(shown.tables[INPUTS][1..3], [vout, flags]);
        assert_eq!(shown.tables[INPUTS][6..10], halves);
    }
}

#[test]
fn ninety_six_bytes() {
    let bytes = one_and_one(0);
    assert_eq!(bytes.len(), 96);
    let shown = read(&bytes, ROOM);
    assert_eq!((shown.answer, shown.place, shown.taken), (0, 0, 96));
    assert_eq!(shown.head, [2, 0, 1, 1, 0, 0, 96]);
    let mut input = vec![6, 0, 0, 43, 0, 4_294_967_294];
    input.resize(20, 0);
    assert_eq!(shown.tables[INPUTS][..20], input);
    assert_eq!(shown.tables[OUTPUTS][..14], [1, 48, 1, 81, 0, 400, 0, 90, 92, 0, 0, 0, 0, 0]);
    assert!(shown.tables[INPUTS][20..].iter().chain(&shown.tables[OUTPUTS][14..]).all(|&number| number == 0));
    assert!(shown.tables[ITEMS].iter().all(|&number| number == 0));
    written_back(&bytes, &shown);
    let fee: [u32; OUTPUT] = shown.tables[OUTPUTS][..OUTPUT].try_into().unwrap();
    assert!(plain::is_fee(&fee, Slip::None) && writer::is_fee(&fee));
}

#[test]
fn hundred_and_three_bytes() {
    let mut bytes = one_and_one(1);
    bytes.extend(hex("00000100000000"));
    assert_eq!(bytes.len(), 103);
    let shown = read(&bytes, ROOM);
    assert_eq!((shown.answer, shown.taken), (0, 103));
    assert_eq!(shown.head, [2, 1, 1, 1, 1, 0, 103]);
    assert_eq!(shown.tables[ITEMS], [100, 0, 0, 0, 0, 0]);
    assert_eq!(shown.tables[INPUTS][13..20], [97, 0, 98, 0, 0, 1, 0]);
    assert_eq!(shown.tables[OUTPUTS][10..14], [102, 0, 103, 0]);
    written_back(&bytes, &shown);
    // The same without its item: all witnesses are empty.
    let mut empty = one_and_one(1);
    empty.extend([0; 6]);
    refused(&read(&empty, ROOM), 8, 4);
}

fn written_back(bytes: &[u8], shown: &Shown) {
    let [inputs, outputs, items] = &shown.tables;
    let order = Order { head: &shown.head, inputs, outputs, items, source: bytes };
    let mut output = vec![0xee; bytes.len() + 3];
    let (written, cause) = plain::write(&order, &mut output, Slip::None);
    assert_eq!(cause, None);
    assert_eq!(written, Written { answer: 0, place: 0, length: bytes.len() });
    assert_eq!(&output[..bytes.len()], bytes);
    assert_eq!(output[bytes.len()..], [0xee; 3]);
    let mut quick = vec![0xee; bytes.len() + 3];
    assert_eq!(writer::write(&order, &mut quick), written);
    assert_eq!(quick, output);
    assert_eq!(writer::written_length(&order), written);
    assert_eq!(plain::written_length(&order, Slip::None), written);
    #[cfg(feature = "archive")]
    {
        use compare::archive::Archive;
        use compare::forms::Writes;
        let mut output = vec![0xee; bytes.len() + 3];
        assert_eq!(Archive::write(&order, &mut output), written);
        assert_eq!(quick, output);
        assert_eq!(Archive::written_length(&order), written);
    }
}

#[test]
fn null_issuance() {
    let mut bytes = up_to_vout(0, 0x8000_0000);
    bytes.push(0);
    bytes.extend([0; 4]);
    assert_eq!(bytes.len(), 47);
    bytes.extend([0x55; 64]);
    bytes.extend([0, 0]);
    bytes.push(0);
    bytes.extend([0; 4]);
    let shown = read(&bytes, ROOM);
    refused(&shown, 6, 47);
    assert_eq!(shown.taken, 113);
}

#[test]
fn capacity() {
    for (inputs, answer) in [(256u16, 0), (257, 4)] {
        let mut bytes = hex("02000000 00 fd");
        bytes.extend(inputs.to_le_bytes());
        for _ in 0..inputs {
            bytes.extend([0; 41]);
        }
        bytes.push(0);
        bytes.extend([0; 4]);
        let shown = read(&bytes, [256, 0, 0]);
        assert_eq!(shown.answer, answer);
        if answer == 4 {
            refused(&shown, 4, 5);
            assert_eq!(shown.taken, 8);
        } else {
            assert_eq!(shown.head[2], 256);
        }
    }
}

/// One input whose script ends so that the whole transaction has this many bytes.
fn of_length(length: usize) -> Vec<u8> {
    let mut bytes = up_to_vout(0, 0);
    let script = length - bytes.len() - 5 - 9;
    bytes.push(254);
    bytes.extend((script as u32).to_le_bytes());
    bytes.resize(length, 0);
    bytes
}

#[test]
fn the_limit() {
    let shown = read(&of_length(LIMIT), ROOM);
    assert_eq!((shown.answer, shown.taken), (0, LIMIT));
    assert_eq!(shown.head[6] as usize, LIMIT);
    for past in 1..=4 {
        let shown = read(&of_length(LIMIT + past), ROOM);
        refused(&shown, 2, LIMIT + past - 4);
        assert_eq!(shown.taken, LIMIT + past - 4);
        // Given with the last byte before the locktime, not when the locktime comes.
        refused(&read(&of_length(LIMIT + past)[..LIMIT + past - 4], ROOM), 2, LIMIT + past - 4);
    }
    refused(&read(&of_length(LIMIT + 5), ROOM), 2, LIMIT);
}

#[test]
fn numbers_enter_with_their_fields() {
    // Fed byte by byte, each number is looked for one byte before and at its field's last byte.
    let bytes = one_and_one(0);
    let numbers = [
        (38, INPUTS, 0, 6),
        (43, INPUTS, 3, 43),
        (47, INPUTS, 5, 4_294_967_294),
        (49, OUTPUTS, 0, 1),
        (49, OUTPUTS, 1, 48),
        (82, OUTPUTS, 2, 1),
        (82, OUTPUTS, 3, 81),
        (90, OUTPUTS, 5, 400),
        (91, OUTPUTS, 7, 90),
        (92, OUTPUTS, 8, 92),
    ];
    let mut tables = prepared(ROOM);
    let mut paper = prepared(ROOM);
    let reading = plain::read(&bytes, tables.lent().sizes(), Slip::None);
    let mut feeding = Feeding::fresh(&reading, &mut paper.lent(), Slip::None);
    let mut state = Resume::fresh(&mut tables.lent());
    for (at, byte) in bytes.iter().enumerate() {
        for (when, table, number, value) in numbers {
            let expected = if at >= when { value } else { 0 };
            assert_eq!(tables.table(table)[number], expected, "resume, after {at} bytes");
            assert_eq!(paper.table(table)[number], expected, "plain, after {at} bytes");
        }
        let outcome;
        (state, outcome) = Resume::push(state, &[*byte], &mut tables.lent());
        assert_eq!(outcome, feeding.push(1, &mut paper.lent()));
        assert_eq!(outcome.answer, if at == 95 { FINISHED } else { MORE });
    }
}
