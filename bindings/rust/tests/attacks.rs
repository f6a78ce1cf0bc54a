//! What a caller could try to get a wrong record, a record of a former lorry, or a panic. What the types refuse is in `refused_by_types.md`.
mod common;

use common::*;
use takzulit::{
    columns, is_fee, DecoderStatus, Draft, Head, OwnedDecoder, RefusalKind, Transaction, TransactionDecoder, Value, INPUT_WIDTH,
    ITEM_WIDTH, LIMIT, OUTPUT_WIDTH, STATE,
};

// ---- another lorry's records

/// Once a reading that had taken 50 bytes could be taken up with tables full of 7, and finished with 7s in its record. Now it keeps its own, wherever
/// it goes between two pieces.
#[test]
fn a_reading_keeps_its_tables() {
    let b = load_96();
    let mut own = room(1, 1, 1);
    let other = room(1, 1, 1);
    let mut decoder = TransactionDecoder::new(&mut own.inputs, &mut own.outputs, &mut own.items);
    assert_eq!(decoder.push_bytes(&mut &b[..50]), Ok(DecoderStatus::NeedsMore));
    let mut kept = Some(Box::new(decoder));
    assert!(other.numbers().all(|&n| n == 7));
    let mut decoder = *kept.take().unwrap();
    assert_eq!(decoder.push_bytes(&mut &b[50..]), Ok(DecoderStatus::Ready));
    let t = decoder.end().unwrap();
    assert_eq!(t.outputs().next().unwrap().value, Value::Explicit(400));
    let draft = t.draft();
    assert!(draft.inputs.iter().chain(draft.outputs).chain(draft.items).all(|&n| n != 7));
    assert!(other.numbers().all(|&n| n == 7));
}

#[test]
fn a_reading_goes_on_in_another_thread() {
    let b = load_96();
    let mut r = room(1, 1, 1);
    let mut decoder = TransactionDecoder::new(&mut r.inputs, &mut r.outputs, &mut r.items);
    assert_eq!(decoder.push_bytes(&mut &b[..50]), Ok(DecoderStatus::NeedsMore));
    let head = std::thread::scope(|s| {
        s.spawn(|| {
            decoder.push_bytes(&mut &b[50..]).unwrap();
            decoder.end().unwrap().head()
        })
        .join()
        .unwrap()
    });
    assert_eq!((head.outputs, head.bytes), (1, 96));
}

/// Two lorries at once, cut into pieces of every length, and their decoders swapped between the pieces: each reading ends with its own records.
#[test]
fn two_readings_at_once() {
    let loads = [load_103(), issuance()];
    for cut in 1..50 {
        let mut decoders = [OwnedDecoder::new(1, 1, 1).unwrap(), OwnedDecoder::new(1, 1, 1).unwrap()];
        let mut pieces = [loads[0].chunks(cut), loads[1].chunks(cut)];
        for _ in 0..loads[1].len() {
            for i in 0..2 {
                if let Some(mut piece) = pieces[i].next() {
                    decoders[i].push_bytes(&mut piece).unwrap();
                }
            }
            decoders.swap(0, 1);
            pieces.swap(0, 1);
        }
        if loads[1].len() % 2 == 1 {
            decoders.swap(0, 1);
        }
        for (decoder, load) in decoders.iter_mut().zip(&loads) {
            let mut r = room(1, 1, 1);
            let alone = Transaction::read_strict(load, &mut r.inputs, &mut r.outputs, &mut r.items).unwrap();
            same(&decoder.end().unwrap(), &alone);
        }
    }
}

fn same(one: &Transaction, other: &Transaction) {
    let (one, other) = (one.draft(), other.draft());
    assert_eq!(one.head, other.head);
    assert_eq!((one.inputs, one.outputs, one.items), (other.inputs, other.outputs, other.items));
}

/// The same tables all night: after a large transaction, a small one, a refused one and one that was left in its middle, nothing of a former one.
#[test]
fn nothing_of_a_former_lorry() {
    let mut r = room(2, 2, 2);
    let mut owned = OwnedDecoder::new(2, 2, 2).unwrap();
    let mut large = bytes("02000000 00 02");
    for _ in 0..2 {
        large.extend([0x11; 32]);
        large.extend(bytes("00000000 00 feffffff"));
    }
    large.extend(bytes("02 00 00 00 00 00 00 00 00 00000000"));
    let refused = &load_96()[..95];
    for load in [&large[..], refused, &load_103(), &large[..60], &load_11(), &large, &load_96()] {
        let read = told(Transaction::read_strict(load, &mut r.inputs, &mut r.outputs, &mut r.items).map(|t| t.head()));
        let _ = owned.push_bytes(&mut &load[..]);
        let head = read.unwrap_or_default();
        match owned.end() {
            Ok(t) => assert_eq!((t.head(), t.draft().inputs), (head, &r.inputs[..])),
            Err(_) => assert!(read.is_err() && r.all_zero()),
        }
        assert!(r.inputs[INPUT_WIDTH * head.inputs as usize..].iter().all(|&n| n == 0));
        assert!(r.outputs[OUTPUT_WIDTH * head.outputs as usize..].iter().all(|&n| n == 0));
        assert!(r.items[ITEM_WIDTH * head.items as usize..].iter().all(|&n| n == 0));
    }
    // left in its middle, and its tables used again
    let mut decoder = TransactionDecoder::new(&mut r.inputs, &mut r.outputs, &mut r.items);
    decoder.push_bytes(&mut &large[..100]).unwrap();
    assert!(strict(&load_11(), &mut r).is_ok() && r.all_zero());
    owned.restart();
    owned.push_bytes(&mut &large[..100]).unwrap();
    owned.restart();
    owned.push_bytes(&mut &load_11()[..]).unwrap();
    let t = owned.end().unwrap();
    assert!(t.draft().inputs.iter().chain(t.draft().outputs).chain(t.draft().items).all(|&n| n == 0));
}

// ---- out of turn

#[test]
fn after_the_end_nothing_is_taken() {
    let mut r = room(1, 1, 1);
    let b = load_96();
    let mut decoder = TransactionDecoder::new(&mut r.inputs, &mut r.outputs, &mut r.items);
    decoder.push_bytes(&mut &b[..]).unwrap();
    let mut more = &b[..];
    assert_eq!(decoder.push_bytes(&mut more), Ok(DecoderStatus::Ready));
    assert_eq!(more.len(), 96);
    assert_eq!(decoder.end().unwrap().outputs().next().unwrap().value, Value::Explicit(400));
    // with tables of its own too, until it is asked for the transaction
    let mut owned = OwnedDecoder::new(1, 1, 1).unwrap();
    owned.push_bytes(&mut &b[..]).unwrap();
    assert_eq!(owned.push_bytes(&mut more), Ok(DecoderStatus::Ready));
    assert_eq!(more.len(), 96);
    // a refusal repeats until it was asked for
    owned.restart();
    let mut bad = b.clone();
    bad[81] = 7;
    assert_eq!(told(owned.push_bytes(&mut &bad[..])), Err((5, 81)));
    assert_eq!(told(owned.push_bytes(&mut more)), Err((5, 81)));
    assert_eq!((more.len(), told(owned.end().map(|t| t.head()))), (96, Err((5, 81))));
    assert_eq!(owned.push_bytes(&mut more), Ok(DecoderStatus::Ready));
}

/// A loop that never starts anew: each transaction is given once, and the next one's bytes are not answered by the last one.
#[test]
fn a_transaction_is_given_once() {
    let mut owned = OwnedDecoder::new(1, 1, 1).unwrap();
    owned.push_bytes(&mut &load_96()[..]).unwrap();
    assert_eq!(owned.end().unwrap().outputs().next().unwrap().value, Value::Explicit(400));
    assert_eq!(told(owned.end().map(|t| t.head())), Err((1, 0)));
    // the next one, and nothing of the last
    let mut eleven = &load_11()[..];
    assert_eq!(owned.push_bytes(&mut eleven), Ok(DecoderStatus::Ready));
    assert!(eleven.is_empty());
    let t = owned.end().unwrap().draft();
    assert_eq!((t.head.bytes, t.head.outputs), (11, 0));
    assert!(t.inputs.iter().chain(t.outputs).chain(t.items).all(|&n| n == 0));
    // one that was ended early is gone: what comes then is a transaction's start
    owned.push_bytes(&mut &load_96()[..50]).unwrap();
    assert_eq!(told(owned.end().map(|t| t.head())), Err((1, 50)));
    assert_eq!(owned.push_bytes(&mut &load_96()[..]), Ok(DecoderStatus::Ready));
    assert_eq!(owned.end().unwrap().head().bytes, 96);
}

#[test]
fn empty_pieces_change_nothing() {
    let b = load_103();
    let mut r = room(1, 1, 1);
    let mut decoder = TransactionDecoder::new(&mut r.inputs, &mut r.outputs, &mut r.items);
    for byte in b.chunks(1) {
        let before = decoder.state();
        assert_eq!(decoder.push_bytes(&mut &[][..]), Ok(DecoderStatus::NeedsMore));
        assert_eq!(decoder.state(), before);
        decoder.push_bytes(&mut &byte[..]).unwrap();
    }
    assert_eq!(decoder.end().unwrap().head().bytes, 103);
}

// ---- lengths

/// Tables of every length up to two records and a bit: as many whole records as fit, and what is over stays 0.
#[test]
fn tables_of_every_length() {
    let b = load_103();
    for length in 0..2 * INPUT_WIDTH + 2 {
        let mut r = Room { inputs: vec![7; length], outputs: vec![7; length], items: vec![7; length] };
        // an input record is the widest, and the inputs' count the first
        let refused = (length < INPUT_WIDTH).then_some((4, 5));
        let mut decoder = TransactionDecoder::new(&mut r.inputs, &mut r.outputs, &mut r.items);
        let fed = b.chunks(5).try_for_each(|mut piece| decoder.push_bytes(&mut piece).map(|_| ()));
        assert_eq!((told(fed).err(), told(decoder.end()).err()), (refused, refused), "{length} numbers");
        let read = strict(&b, &mut r);
        assert_eq!(read.err(), refused, "{length} numbers");
        if read.is_ok() {
            assert!(r.inputs[INPUT_WIDTH..].iter().chain(&r.outputs[OUTPUT_WIDTH..]).chain(&r.items[ITEM_WIDTH..]).all(|&n| n == 0));
        } else {
            assert!(r.all_zero());
        }
    }
    // one table without room, the others with it
    for (inputs, outputs, items, place) in [(0, 1, 1, 5), (1, 0, 1, 47), (1, 1, 0, 98)] {
        let mut r = room(inputs, outputs, items);
        assert_eq!(strict(&b, &mut r), Err((4, place)));
        assert!(r.all_zero());
    }
    let mut decoder = TransactionDecoder::new(&mut [], &mut [], &mut []);
    assert_eq!(told(decoder.push_bytes(&mut &bytes("02000000 00 01")[..])), Err((4, 5)));
}

/// Three tables side by side in one array, with marks between and behind: nothing is written but the tables.
#[test]
fn tables_side_by_side() {
    let mut all = [7; INPUT_WIDTH + 1 + OUTPUT_WIDTH + 1 + ITEM_WIDTH + 1];
    for load in [load_103(), load_96()[..90].to_vec(), load_11()] {
        let (inputs, rest) = all.split_at_mut(INPUT_WIDTH);
        let (mark, rest) = rest.split_at_mut(1);
        let (outputs, rest) = rest.split_at_mut(OUTPUT_WIDTH);
        let (mark_2, rest) = rest.split_at_mut(1);
        let (items, mark_3) = rest.split_at_mut(ITEM_WIDTH);
        let _ = Transaction::read_strict(&load, inputs, outputs, items);
        assert_eq!((mark, mark_2, mark_3), (&mut [7][..], &mut [7][..], &mut [7][..]));
    }
}

#[test]
fn tables_that_no_memory_holds() {
    for records in [usize::MAX, usize::MAX / 2, usize::MAX / ITEM_WIDTH + 1, isize::MAX as usize / 4, usize::MAX / OUTPUT_WIDTH + 1] {
        assert!(OwnedDecoder::new(records, 0, 0).is_none());
        assert!(OwnedDecoder::new(0, records, 0).is_none());
        assert!(OwnedDecoder::new(0, 0, records).is_none());
    }
    let mut none = OwnedDecoder::new(0, 0, 0).unwrap();
    none.push_bytes(&mut &load_11()[..]).unwrap();
    assert_eq!(none.end().unwrap().head().bytes, 11);
}

#[test]
fn lengths_that_would_wrap() {
    // a script of 2^64 - 1 bytes, and of lengths that come to 0 when they are added to their place in 64 or 32 bits
    for length in [u64::MAX, u64::MAX - 50, u64::MAX - 41, (1 << 32) - 51, (1 << 32) - 47] {
        let mut b = bytes("02000000 00 01");
        b.extend([0x11; 32]);
        b.extend([0; 4]);
        match u32::try_from(length) {
            Ok(length) => {
                b.push(254);
                b.extend(length.to_le_bytes());
            }
            Err(_) => {
                b.push(255);
                b.extend(length.to_le_bytes());
            }
        }
        b.extend([0; 60]);
        assert_eq!(strict(&b, &mut room(1, 1, 1)), Err((2, 42)));
    }
}

/// A piece that is longer than a transaction can be, and the greatest transaction.
#[test]
fn long_pieces() {
    let mut b = load_11();
    b.resize(LIMIT + 100, 0xff);
    let mut r = room(1, 1, 1);
    let mut decoder = TransactionDecoder::new(&mut r.inputs, &mut r.outputs, &mut r.items);
    let mut piece = &b[..];
    assert_eq!(decoder.push_bytes(&mut piece), Ok(DecoderStatus::Ready));
    assert_eq!(piece.len(), LIMIT + 89);
    assert_eq!(strict(&b, &mut r), Err((9, 11)));
    // one input whose script fills it up to the limit; with a byte more the locktime passes it
    for (over, refused) in [(0, None), (1, Some((2, LIMIT + 1 - 4)))] {
        let script = LIMIT - 56 + over;
        let mut b = bytes("02000000 00 01");
        b.extend([0x11; 32]);
        b.extend([0; 4]);
        b.push(254);
        b.extend((script as u32).to_le_bytes());
        b.resize(b.len() + script, 0);
        b.extend([0; 4 + 1 + 4]);
        assert_eq!(b.len(), LIMIT + over);
        assert_eq!(strict(&b, &mut r).err(), refused);
    }
}

// ---- drafts that no reading gave

#[test]
fn drafts_of_any_numbers() {
    let head = Head { flag: 1, inputs: u32::MAX, outputs: u32::MAX, items: u32::MAX, ..Head::default() };
    let draft = Draft { head, inputs: &[u32::MAX; 39], outputs: &[u32::MAX; 27], items: &[u32::MAX; 3] };
    let mut output = [9; 100];
    assert_eq!(told(draft.write(&[], &mut output)), Err((10, 0)));
    assert_eq!(common::kind(draft.written_length(&[])), Some(RefusalKind::TablesDiffer));
    let counted = Draft { head: Head { inputs: 1, outputs: 1, items: 1, ..head }, ..draft };
    assert_eq!(common::kind(counted.write(&[9; 100], &mut output)), Some(RefusalKind::BadRecord));
    let none = Draft { inputs: &[], outputs: &[], items: &[], ..draft };
    assert_eq!(told(none.written_length(&[])), Err((10, 0)));
    assert_eq!(output, [9; 100]);
    // one slice as all three tables: nobody writes there, so they may be the same
    let numbers = [0; INPUT_WIDTH];
    let one = Draft { head: Head { inputs: 1, outputs: 1, ..Head::default() }, inputs: &numbers, outputs: &numbers, items: &numbers };
    // version 4, flag 1, count 1, txid 32, vout 4, script 1, sequence 4, count 1, null asset, value and nonce 3, script 1, locktime 4
    assert_eq!(one.written_length(&[0; 32]), Ok(56));
    assert_eq!(told(one.write(&[0; 32], &mut [])), Err((14, 0)));
}

/// Each refusal of writing, by name; the output is as it was.
#[test]
fn refusals_of_writing_by_name() {
    use RefusalKind::*;
    let b = issuance();
    let mut r = room(1, 1, 1);
    let t = Transaction::read_strict(&b, &mut r.inputs, &mut r.outputs, &mut r.items).unwrap().draft();
    let altered = |numbers: &[(usize, u32)]| {
        let mut inputs = t.inputs.to_vec();
        for &(column, number) in numbers {
            inputs[column] = number;
        }
        inputs
    };
    use columns::input::*;
    for (inputs, head, source, room, kind) in [
        (altered(&[(SCRIPT_LENGTH, 4_000_000)]), t.head, vec![0; 5_000_000], 0, LimitPassed),
        (altered(&[(AMOUNT_PREFIX, 0), (AMOUNT_HIGH, 0), (AMOUNT_LOW, 0)]), t.head, b.clone(), 200, NullIssuance),
        (altered(&[]), Head { flag: 2, ..t.head }, b.clone(), 200, BadFlag),
        (altered(&[]), Head { flag: 1, ..t.head }, b.clone(), 200, EmptyWitnesses),
        (altered(&[]), Head { inputs: 2, ..t.head }, b.clone(), 200, TablesDiffer),
        (altered(&[(VOUT, 0x4000_0000)]), t.head, b.clone(), 200, OutpointUnclear),
        (altered(&[(FLAGS, 4)]), t.head, b.clone(), 200, BadRecord),
        (altered(&[]), t.head, b.clone(), b.len() - 1, OutputShort),
    ] {
        let draft = Draft { head, inputs: &inputs, ..t };
        let mut output = vec![9; room];
        assert_eq!(common::kind(draft.write(&source, &mut output)), Some(kind));
        assert!(output.iter().all(|&n| n == 9));
    }
}

#[test]
fn a_body_of_other_bytes() {
    let b = load_96();
    let mut r = room(1, 1, 1);
    let t = Transaction::read_strict(&b, &mut r.inputs, &mut r.outputs, &mut r.items).unwrap();
    let input = t.inputs().next().unwrap();
    assert_eq!(input.txid.get(&b), Some(&[0x11; 32][..]));
    // fewer bytes than were read: none, and no panic
    assert_eq!(input.txid.get(&b[..37]), None);
    assert_eq!(input.txid.get(&[]), None);
}

// ---- the one unsafe function

fn resumed<'t>(state: [usize; STATE], r: &'t mut Room) -> TransactionDecoder<'t> {
    // SAFETY: none is claimed; what a state and tables that are not a reading's come to is what these tests look at. No memory but the tables is
    // touched, whatever they are.
    unsafe { TransactionDecoder::resume_unchecked(state, &mut r.inputs, &mut r.outputs, &mut r.items) }
}

/// As it was meant: with its own tables a stored state goes on.
#[test]
fn a_stored_state_goes_on() {
    let b = load_96();
    let mut r = room(1, 1, 1);
    let mut decoder = TransactionDecoder::new(&mut r.inputs, &mut r.outputs, &mut r.items);
    decoder.push_bytes(&mut &b[..50]).unwrap();
    let state = decoder.state();
    let mut decoder = resumed(state, &mut r);
    assert_eq!(decoder.push_bytes(&mut &b[50..]), Ok(DecoderStatus::Ready));
    assert_eq!(decoder.end().unwrap().outputs().next().unwrap().value, Value::Explicit(400));
}

/// Why it is unsafe: other tables of the same lengths are taken, and the record has another's numbers. Other lengths are refused.
#[test]
fn a_stored_state_with_other_tables() {
    let b = load_96();
    let mut own = room(1, 1, 1);
    let mut decoder = TransactionDecoder::new(&mut own.inputs, &mut own.outputs, &mut own.items);
    decoder.push_bytes(&mut &b[..50]).unwrap();
    let state = decoder.state();
    let mut longer = room(2, 1, 1);
    assert_eq!(common::kind(resumed(state, &mut longer).push_bytes(&mut &b[50..])), Some(RefusalKind::TablesDiffer));
    assert!(longer.numbers().all(|&n| n == 7));
    let mut other = room(1, 1, 1);
    let mut decoder = resumed(state, &mut other);
    assert_eq!(decoder.push_bytes(&mut &b[50..]), Ok(DecoderStatus::Ready));
    let t = decoder.end().unwrap();
    assert_eq!((t.inputs().next().unwrap().vout, t.outputs().next().unwrap().value), (7, Value::Explicit(400)));
}

/// A state that is handed in again behind a piece reads on as if that piece had not come.
#[test]
fn a_stored_state_used_twice() {
    let b = load_96();
    let mut r = room(1, 1, 1);
    let mut decoder = TransactionDecoder::new(&mut r.inputs, &mut r.outputs, &mut r.items);
    decoder.push_bytes(&mut &b[..50]).unwrap();
    let state = decoder.state();
    decoder.push_bytes(&mut &b[50..60]).unwrap();
    let mut decoder = resumed(state, &mut r);
    assert_eq!(decoder.push_bytes(&mut &[0x22; 10][..]), Ok(DecoderStatus::NeedsMore));
    assert_eq!(told(decoder.end().map(|t| t.head())), Err((1, 60)));
}

#[test]
fn a_forged_state_is_refused_and_touches_nothing() {
    let mut r = room(1, 1, 1);
    let b = load_96();
    for number in 0..STATE {
        let mut forged = TransactionDecoder::new(&mut r.inputs, &mut r.outputs, &mut r.items).state();
        forged[number] = usize::MAX;
        r.inputs.fill(7);
        let mut decoder = resumed(forged, &mut r);
        let mut piece = &b[..];
        // 6 to 8 are the tables' lengths: any are within their range, and these differ from the tables' own
        let kind = if (6..=8).contains(&number) { RefusalKind::TablesDiffer } else { RefusalKind::StateForged };
        let refusal = decoder.push_bytes(&mut piece).unwrap_err();
        assert_eq!((refusal.kind(), refusal.place()), (kind, 0), "number {number}");
        assert_eq!((decoder.state(), piece.len()), (forged, 96));
        assert_eq!(common::kind(decoder.end()), Some(kind));
        assert!(r.inputs.iter().all(|&n| n == 7));
    }
}

/// Whatever state and tables are handed in: an answer, no panic, and no method of what comes out of it panics.
#[test]
fn forged_states_never_panic() {
    let loads = [load_11(), load_96(), load_103(), issuance()];
    let mut seed = 1u64;
    let mut random = move |below: usize| {
        seed = seed.wrapping_mul(6364136223846793005).wrapping_add(1442695040888963407);
        (seed >> 33) as usize % below
    };
    let (mut finished, mut refused) = (0, 0);
    for _ in 0..40_000 {
        let load = &loads[random(4)];
        let cut = random(load.len() + 1);
        let mut r = room(2, 2, 2);
        let mut decoder = TransactionDecoder::new(&mut r.inputs, &mut r.outputs, &mut r.items);
        let _ = decoder.push_bytes(&mut &load[..cut]);
        let mut state = decoder.state();
        for _ in 0..random(3) {
            let number = random(STATE);
            state[number] = match random(4) {
                0 => random(300),
                1 => state[number].wrapping_add(random(5)).wrapping_sub(2),
                2 => random(4_000_001),
                _ => usize::MAX - random(2),
            };
        }
        if random(2) == 0 {
            r.inputs.fill(u32::MAX);
            r.outputs.fill(u32::MAX);
            r.items.fill(u32::MAX);
        }
        let mut decoder = resumed(state, &mut r);
        let mut piece = &load[cut..];
        let _ = decoder.push_bytes(&mut piece);
        assert!(piece.len() <= load.len() - cut);
        match decoder.end() {
            Ok(t) => {
                finished += 1;
                for input in t.inputs() {
                    let _ = (input.script_items(), input.pegin_items(), input.txid.get(load), input.amount_proof.get(load));
                }
                for output in t.outputs() {
                    let _ = (output.is_fee(), output.asset.body().get(load), output.script.get(load), format!("{output:?}"));
                }
                assert!(t.items().all(|item| item.body.get(load).map_or(true, |body| body.len() <= load.len())));
                let mut output = [9; 200];
                if t.write(load, &mut output).is_err() {
                    assert_eq!(output, [9; 200]);
                }
            }
            Err(refusal) => {
                refused += 1;
                assert_ne!(refusal.kind(), RefusalKind::Unlisted);
                assert!(!refusal.to_string().is_empty());
            }
        }
    }
    assert!(finished > 5_000 && refused > 5_000, "{finished} finished, {refused} refused");
}

#[test]
fn the_fee_question_of_any_record() {
    for n in [0, 1, u32::MAX] {
        let mut record = [n; OUTPUT_WIDTH];
        record[columns::output::SCRIPT_LENGTH] = 0;
        assert!(is_fee(&record));
        record[columns::output::SCRIPT_LENGTH] = u32::MAX;
        assert!(!is_fee(&record));
    }
}
