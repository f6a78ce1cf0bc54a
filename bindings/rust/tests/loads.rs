//! Document 01's loads through the linked library. Every expected number stands in 01, or is counted from its layout.
mod common;

use common::*;
use takzulit::{
    columns, is_fee, Amount, Body, DecoderStatus, Draft, Head, Prefixed, RefusalKind, Transaction, TransactionDecoder, Value, INPUT_WIDTH,
    OUTPUT_WIDTH,
};

#[test]
fn eleven_bytes() {
    let mut r = room(1, 1, 1);
    let head = strict(&load_11(), &mut r).unwrap();
    assert_eq!(head, Head { version: 2, bytes: 11, ..Head::default() });
    assert_eq!(strict(&bytes("02000000 01 00 00 00000000"), &mut r), Err((8, 4)));
    assert_eq!(strict(&bytes("02000000 02 00 00 00000000"), &mut r), Err((7, 4)));
    assert_eq!(strict(&load_11()[..10], &mut r), Err((1, 10)));
    assert_eq!(strict(&bytes("02000000 00 00 00 00000000 00"), &mut r), Err((9, 11)));
    assert!(r.all_zero());
}

#[test]
fn ninety_six_bytes_by_every_cut() {
    let b = load_96();
    for cut in 0..=b.len() {
        let mut r = room(2, 2, 2);
        let mut decoder = TransactionDecoder::new(&mut r.inputs, &mut r.outputs, &mut r.items);
        let (mut first, mut rest) = b.split_at(cut);
        let whole = if cut == b.len() { DecoderStatus::Ready } else { DecoderStatus::NeedsMore };
        assert_eq!(decoder.push_bytes(&mut first), Ok(whole));
        assert_eq!(decoder.push_bytes(&mut rest), Ok(DecoderStatus::Ready));
        assert!(first.is_empty() && rest.is_empty());
        let t = decoder.end().unwrap().draft();
        let (input, behind) = t.inputs.split_at(INPUT_WIDTH);
        assert_eq!(input[..6], [6, 0, 0, 43, 0, 4294967294]);
        assert!(input[6..].iter().all(|&n| n == 0));
        assert_eq!(t.outputs[..OUTPUT_WIDTH], [1, 48, 1, 81, 0, 400, 0, 90, 92, 0, 0, 0, 0, 0]);
        assert!(behind.iter().chain(&t.outputs[OUTPUT_WIDTH..]).chain(t.items).all(|&n| n == 0));
    }
}

#[test]
fn what_follows_stays_in_the_piece() {
    let mut b = load_103();
    b.extend([1, 2, 3]);
    let mut r = room(1, 1, 1);
    let mut decoder = TransactionDecoder::new(&mut r.inputs, &mut r.outputs, &mut r.items);
    let mut piece = &b[..];
    assert_eq!(decoder.push_bytes(&mut piece), Ok(DecoderStatus::Ready));
    assert_eq!(piece, [1, 2, 3]);
    let t = decoder.end().unwrap();
    assert_eq!((t.head().items, t.head().bytes), (1, 103));
    assert_eq!(t.draft().items, [100, 0]);
    assert_eq!(t.inputs().next().unwrap().script_items(), 0..1);
    // at once, and not strictly, it is the same
    let t = Transaction::read(&b, &mut r.inputs, &mut r.outputs, &mut r.items).unwrap();
    assert_eq!(t.head().bytes, 103);
}

#[test]
fn issuance_and_pegin() {
    let b = issuance();
    let mut r = room(1, 1, 1);
    let t = Transaction::read(&b, &mut r.inputs, &mut r.outputs, &mut r.items).unwrap();
    let input = t.inputs().next().unwrap();
    assert_eq!((input.vout, input.is_pegin, input.has_issuance, input.issuance), (5, true, true, 47));
    assert_eq!((input.amount, input.keys), (Amount::Explicit((1 << 32) + 7), Amount::Null));
    assert_eq!(t.inputs().count(), 1);
    assert_eq!(t.outputs().count(), 0);
}

/// A misread flag turns an ordinary spend into new salt.
#[test]
fn flags_one_by_one() {
    for (raw, vout, is_pegin, has_issuance) in [
        (0x0000_0005_u32, 5, false, false),
        (0x4000_0005, 5, true, false),
        (0x8000_0005, 5, false, true),
        (0xc000_0005, 5, true, true),
        (0xbfff_ffff, 0x3fff_ffff, false, true),
        (0xffff_ffff, 0xffff_ffff, false, false),
    ] {
        let mut b = issuance();
        b.splice(38..42, raw.to_le_bytes());
        if !has_issuance {
            b.drain(47..121); // nonce, entropy, amount, keys
        }
        let mut r = room(1, 1, 1);
        let t = Transaction::read_strict(&b, &mut r.inputs, &mut r.outputs, &mut r.items).unwrap();
        let input = t.inputs().next().unwrap();
        assert_eq!((input.vout, input.is_pegin, input.has_issuance), (vout, is_pegin, has_issuance), "{raw:x}");
        assert_eq!(input.amount, if has_issuance { Amount::Explicit((1 << 32) + 7) } else { Amount::Null });
    }
}

#[test]
fn null_issuance() {
    let mut b = issuance();
    b.splice(111..120, [0]);
    b[41] = 0x80;
    assert_eq!(strict(&b, &mut room(1, 1, 1)), Err((6, 47)));
}

/// A transaction under construction: it knows where it stands.
struct Builder(Vec<u8>);

impl Builder {
    fn at(&self) -> u32 {
        self.0.len() as u32
    }

    /// Bytes of a fixed field, and where they stand.
    fn put(&mut self, bytes: &[u8]) -> u32 {
        let at = self.at();
        self.0.extend(bytes);
        at
    }

    /// A length and a body of that many bytes; position and length.
    fn body(&mut self, length: u16) -> (u32, u32) {
        match length {
            0..=252 => self.put(&[length as u8]),
            _ => self.put(&[253, length as u8, (length >> 8) as u8]),
        };
        (self.put(&vec![0x55; length.into()]), length.into())
    }
}

/// A record with these numbers, and 0 elsewhere.
fn record<const WIDTH: usize>(numbers: &[(usize, u32)]) -> [u32; WIDTH] {
    let mut record = [0; WIDTH];
    for &(column, number) in numbers {
        record[column] = number;
    }
    record
}

/// Every feature at once: each column by its name, each field by its own.
#[test]
fn every_column_has_its_name() {
    use columns::{input, output};
    let mut b = Builder(bytes("03000000 01 02"));
    // an input with both flags, an explicit amount and a commitment to the keys
    let txid = b.put(&[0x11; 32]);
    b.put(&[9, 0, 0, 0xc0]);
    let script = b.body(3);
    b.put(&[0xfd, 0xff, 0xff, 0xff]);
    let issued = b.put(&[0x22; 64]);
    b.put(&[1, 0, 0, 0, 5, 0, 0, 0, 6]);
    b.put(&[9]);
    b.put(&[0x33; 32]);
    // one without an outpoint
    let txid_2 = b.put(&[0; 32]);
    b.put(&[0xff; 4]);
    let script_2 = b.body(0);
    b.put(&[4, 0, 0, 0]);
    // a blinded output, then an explicit one
    b.put(&[2]);
    let asset = b.put(&[10]);
    b.put(&[0x44; 32]);
    let value = b.put(&[8]);
    b.put(&[0x45; 32]);
    let nonce = b.put(&[3]);
    b.put(&[0x46; 32]);
    let out_script = b.body(2);
    let asset_2 = b.put(&[1]);
    b.put(&[0x47; 32]);
    let value_2 = b.put(&[1, 0, 0, 0, 7, 0, 0, 0, 8]);
    let nonce_2 = b.put(&[0]);
    let out_script_2 = b.body(0);
    b.put(&[0x10, 0, 0, 0]); // locktime
    let amount_proof = b.body(5);
    let keys_proof = b.body(300);
    b.put(&[2]);
    let items = [b.body(2), b.body(0)];
    b.put(&[1]);
    let pegin_item = b.body(4);
    let amount_proof_2 = b.body(0);
    let keys_proof_2 = b.body(0);
    b.put(&[1]);
    let item_2 = b.body(1);
    b.put(&[0]);
    let proofs = [b.body(3), b.body(600), b.body(0), b.body(0)];
    let b = b.0;

    let mut r = room(2, 2, 4);
    let t = Transaction::read_strict(&b, &mut r.inputs, &mut r.outputs, &mut r.items).unwrap();
    let head = Head { version: 3, flag: 1, inputs: 2, outputs: 2, items: 4, locktime: 16, bytes: b.len() as u32 };
    assert_eq!(t.head(), head);
    let draft = t.draft();
    let first: [u32; INPUT_WIDTH] = record(&[
        (input::TXID_POSITION, txid),
        (input::VOUT, 9),
        (input::FLAGS, 3),
        (input::SCRIPT_POSITION, script.0),
        (input::SCRIPT_LENGTH, 3),
        (input::SEQUENCE, 0xffff_fffd),
        (input::ISSUANCE_POSITION, issued),
        (input::AMOUNT_PREFIX, 1),
        (input::AMOUNT_HIGH, 5),
        (input::AMOUNT_LOW, 6),
        (input::KEYS_PREFIX, 9),
        (input::AMOUNT_PROOF_POSITION, amount_proof.0),
        (input::AMOUNT_PROOF_LENGTH, 5),
        (input::KEYS_PROOF_POSITION, keys_proof.0),
        (input::KEYS_PROOF_LENGTH, 300),
        (input::SCRIPT_ITEMS, 2),
        (input::PEGIN_ITEMS, 1),
    ]);
    let second: [u32; INPUT_WIDTH] = record(&[
        (input::TXID_POSITION, txid_2),
        (input::VOUT, 0xffff_ffff),
        (input::SCRIPT_POSITION, script_2.0),
        (input::SEQUENCE, 4),
        (input::AMOUNT_PROOF_POSITION, amount_proof_2.0),
        (input::KEYS_PROOF_POSITION, keys_proof_2.0),
        (input::FIRST_ITEM, 3),
        (input::SCRIPT_ITEMS, 1),
    ]);
    assert_eq!(draft.inputs, [first, second].concat());
    let blinded: [u32; OUTPUT_WIDTH] = record(&[
        (output::ASSET_PREFIX, 10),
        (output::ASSET_POSITION, asset),
        (output::VALUE_PREFIX, 8),
        (output::VALUE_POSITION, value),
        (output::NONCE_PREFIX, 3),
        (output::NONCE_POSITION, nonce),
        (output::SCRIPT_POSITION, out_script.0),
        (output::SCRIPT_LENGTH, 2),
        (output::SURJECTION_PROOF_POSITION, proofs[0].0),
        (output::SURJECTION_PROOF_LENGTH, 3),
        (output::RANGE_PROOF_POSITION, proofs[1].0),
        (output::RANGE_PROOF_LENGTH, 600),
    ]);
    let explicit: [u32; OUTPUT_WIDTH] = record(&[
        (output::ASSET_PREFIX, 1),
        (output::ASSET_POSITION, asset_2),
        (output::VALUE_PREFIX, 1),
        (output::VALUE_POSITION, value_2),
        (output::VALUE_HIGH, 7),
        (output::VALUE_LOW, 8),
        (output::NONCE_POSITION, nonce_2),
        (output::SCRIPT_POSITION, out_script_2.0),
        (output::SURJECTION_PROOF_POSITION, proofs[2].0),
        (output::RANGE_PROOF_POSITION, proofs[3].0),
    ]);
    assert_eq!(draft.outputs, [blinded, explicit].concat());
    let stacks = [items[0], items[1], pegin_item, item_2];
    assert_eq!(draft.items, stacks.map(|(position, length)| [position, length]).concat());
    assert_eq!((columns::item::POSITION, columns::item::LENGTH), (0, 1));

    // the same by the fields' names
    let body = |(position, length)| Body { position, length };
    let inputs: Vec<_> = t.inputs().collect();
    assert_eq!((inputs[0].txid, inputs[0].vout, inputs[0].script, inputs[0].sequence), (body((txid, 32)), 9, body(script), 0xffff_fffd));
    assert_eq!((inputs[0].is_pegin, inputs[0].has_issuance, inputs[0].issuance), (true, true, issued));
    assert_eq!((inputs[0].amount, inputs[0].keys), (Amount::Explicit((5 << 32) + 6), Amount::Confidential(9)));
    assert_eq!((inputs[0].amount_proof, inputs[0].keys_proof), (body(amount_proof), body(keys_proof)));
    assert_eq!((inputs[0].script_items(), inputs[0].pegin_items()), (0..2, 2..3));
    assert_eq!((inputs[1].is_pegin, inputs[1].has_issuance, inputs[1].script_items(), inputs[1].pegin_items()), (false, false, 3..4, 4..4));
    let outputs: Vec<_> = t.outputs().collect();
    assert_eq!(outputs[0].asset, Prefixed { prefix: 10, position: asset });
    assert_eq!(outputs[0].asset.body().get(&b), Some(&[0x44; 32][..]));
    assert_eq!(outputs[0].value, Value::Confidential { prefix: 8, position: value });
    assert_eq!(outputs[0].nonce.body().get(&b), Some(&[0x46; 32][..]));
    assert_eq!((outputs[0].surjection_proof, outputs[0].range_proof), (body(proofs[0]), body(proofs[1])));
    assert_eq!((outputs[0].script, outputs[0].is_fee()), (body(out_script), false));
    assert_eq!((outputs[1].value, outputs[1].nonce.is_null(), outputs[1].is_fee()), (Value::Explicit((7 << 32) + 8), true, true));
    assert_eq!(t.items().map(|item| item.body).collect::<Vec<_>>(), stacks.map(body));

    // and back
    let mut written = vec![0; b.len()];
    assert_eq!(t.write(&b, &mut written), Ok(b.len()));
    assert_eq!(written, b);
}

#[test]
fn a_refusal_repeats_and_leaves_nothing() {
    let mut r = room(1, 1, 1);
    let mut decoder = TransactionDecoder::new(&mut r.inputs, &mut r.outputs, &mut r.items);
    let mut b = load_96();
    b[81] = 7; // the value's prefix
    let mut piece = &b[..];
    assert_eq!(told(decoder.push_bytes(&mut piece)), Err((5, 81)));
    assert_eq!(piece.len(), 96 - 82);
    assert_eq!(told(decoder.push_bytes(&mut piece)), Err((5, 81)));
    assert_eq!(piece.len(), 96 - 82);
    assert_eq!(told(decoder.end().map(|t| t.head())), Err((5, 81)));
    assert!(r.all_zero());
}

#[test]
fn writing_back() {
    for b in [load_96(), load_103(), issuance(), load_11()] {
        let mut r = room(1, 1, 1);
        let t = Transaction::read_strict(&b, &mut r.inputs, &mut r.outputs, &mut r.items).unwrap();
        assert_eq!(t.written_length(&b), Ok(b.len()));
        let mut output = vec![9; b.len() + 5];
        assert_eq!(t.write(&b, &mut output), Ok(b.len()));
        assert_eq!(output[..b.len()], b[..]);
        assert_eq!(output[b.len()..], [9; 5]);
        let mut short = vec![9; b.len() - 1];
        assert_eq!(told(t.write(&b, &mut short)), Err((14, 0)));
        assert!(short.iter().all(|&n| n == 9));
    }
}

#[test]
fn writing_refuses() {
    let b = load_96();
    let mut r = room(1, 1, 1);
    let t = Transaction::read_strict(&b, &mut r.inputs, &mut r.outputs, &mut r.items).unwrap().draft();
    // a body past the source's end
    assert_eq!(told(t.written_length(&b[..80])), Err((13, 0)));
    // an outpoint that can't be told apart
    let mut inputs = t.inputs.to_vec();
    inputs[columns::input::VOUT] = 0x4000_0000;
    assert_eq!(told(Draft { inputs: &inputs, ..t }.written_length(&b)), Err((12, 0)));
    // other heads: more inputs than records; a flag above 1; flag 1 over empty witnesses; an item that is no input's, placed at the number of inputs
    for (head, number, place) in [
        (Head { inputs: 2, ..t.head }, 10, 0),
        (Head { flag: 2, ..t.head }, 7, 4),
        (Head { flag: 1, ..t.head }, 8, 4),
        (Head { items: 1, ..t.head }, 13, 1),
    ] {
        assert_eq!(told(Draft { head, ..t }.written_length(&b)), Err((number, place)));
    }
}

/// Each refusal of reading by the shortest load that was found, with its name. Those of misuse and of writing are with the attacks.
#[test]
fn refusals_by_name() {
    use RefusalKind::*;
    let mut limit = bytes("02000000 00 01");
    limit.extend([0x11; 32]);
    limit.extend(bytes("00000000 feffff ffff"));
    let input = |rest: &str| [&limit[..42], &bytes(rest)[..]].concat();
    for (load, kind) in [
        (vec![], EndsEarly),
        (limit.clone(), LimitPassed),
        (bytes("02000000 00 fdfc00"), NotShortest),
        (bytes("02000000 00 02"), NoRecordLeft),
        (bytes("02000000 00 00 01 02"), BadPrefix),
        (bytes("02000000 02 00 00 00000000"), BadFlag),
        (bytes("02000000 01 00 00 00000000"), EmptyWitnesses),
        (bytes("02000000 00 00 00 00000000 00"), BytesFollow),
        (input("00 ffffffff 00 00000000 ff"), BytesFollow),
    ] {
        let mut r = room(1, 1, 1);
        let read = Transaction::read_strict(&load, &mut r.inputs, &mut r.outputs, &mut r.items);
        assert_eq!(common::kind(read), Some(kind), "{load:02x?}");
        assert!(r.all_zero());
    }
}

#[test]
fn fees() {
    let mut record = [0; OUTPUT_WIDTH];
    assert!(is_fee(&record));
    record[columns::output::SCRIPT_LENGTH] = 1;
    assert!(!is_fee(&record));
}
