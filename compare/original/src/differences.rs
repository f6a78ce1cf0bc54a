//! Each difference that docs/DIFFERENCES.md names, by an input; or why no run here can show it.

use crate::cases::{input, plain};
use crate::fields::View;
use crate::original::{self, Refusal};
use crate::ours::{Library, Ours, Tables};
use compare::paper::*;
use elements::{AssetEntropy, AssetIssuance, OutPoint, Script, Sequence, Transaction, TxIn, TxInWitness, Txid};

/// What is demanded and didn't show.
type Shown = Result<(), String>;

/// A difference that an input shows: its section, what it is about, what each side says, and the run that demands it.
pub struct Named {
    section: &'static str,
    about: &'static str,
    ours: &'static str,
    original: &'static str,
    show: fn() -> Shown,
}

pub const SHOWN: &[Named] = &[
    Named {
        section: "1.3",
        about: "pegin stacks of 1, 5 and 7 items, and of six with a wrong length",
        ours: "accepted",
        original: "both readers: an incorrect length",
        show: pegin_stacks,
    },
    Named {
        section: "1.4",
        about: "65,536 inputs",
        ours: "accepted",
        original: "new: accepted; older: an oversized allocation",
        show: allocation,
    },
    Named {
        section: "2.1",
        about: "4,000,001 bytes, and one less",
        ours: "2 at 3,999,997, and accepted",
        original: "both readers: accepted, and accepted",
        show: limit,
    },
    Named {
        section: "2.2",
        about: "one input and no record for it, cut behind the count, and whole",
        ours: "4 at 5",
        original: "the bytes end too early, and both readers: accepted",
        show: room,
    },
    Named {
        section: "2.3",
        about: "a script count of 2^32",
        ours: "4 at 54, with four records",
        original: "both readers: above the limit",
        show: huge_count,
    },
    Named {
        section: "3.1",
        about: "the refusals that both know",
        ours: "1 at 10, 3 at 5, 5 at 7, 6 at 47, 7 at 4, 8 at 4, 9 at 11",
        original: "both readers: the same reasons by other names; 9 by the older alone",
        show: names,
    },
    Named {
        section: "3.2",
        about: "a fault that one side alone knows: no record for an input, a pegin count of 7 at the end",
        ours: "4 at 5, and 1 at 56",
        original: "the bytes end too early, and an incorrect length",
        show: first_fault,
    },
    Named {
        section: "3.3",
        about: "a length of 2^32",
        ours: "2 at 42",
        original: "both readers: above the limit, where usize has 64 bits",
        show: huge_length,
    },
    Named {
        section: "3.4",
        about: "ten bytes, the finish, and one byte more",
        ours: "1 at 10, and again with no byte taken",
        original: "`end` consumes the decoder",
        show: ended,
    },
    Named {
        section: "4.1",
        about: "the three outpoints of number 12",
        ours: "12 at 0",
        original: "both writers: written, and read again as others",
        show: outpoints,
    },
    Named {
        section: "4.2",
        about: "flag 1 and no witnesses",
        ours: "8 at 4",
        original: "flag 0 is written",
        show: flag,
    },
    Named {
        section: "4.3",
        about: "an issuance with both values null",
        ours: "6 at 0",
        original: "both writers: a plain input is written",
        show: null_issuance,
    },
    Named {
        section: "4.4",
        about: "11 bytes into an output of 10",
        ours: "14 at 0",
        original: "a vector grows",
        show: short_output,
    },
    Named { section: "4.6", about: "an output of four null bytes", ours: "a fee", original: "no fee", show: fee },
];

/// What no run over the shims can show, and why.
pub const NOT_SHOWN: &[(&str, &str)] = &[
    ("1.1", "curve points: the shims accept any 32 bytes"),
    ("1.2", "proof contents: the shims accept any bytes"),
    ("2.3", "4 for an item table of more than 4,294,967,295 records: it takes 32 GiB"),
    ("3.2", "`InvalidCommitment` before 7: as 1.1"),
    ("3.3", "the older reader's loss of a length's high half: only where usize has 32 bits"),
    ("4.5", "commitments and proofs written from parsed values: the shims hold bytes"),
];

/// Every one of them, printed; true if all show.
pub fn run() -> bool {
    let mut failed = 0;
    for Named { section, about, ours, original, show } in SHOWN {
        match show() {
            Ok(()) => println!("{section} {about}: ours: {ours}; the original: {original}"),
            Err(what) => {
                failed += 1;
                println!("{section} {about}: NOT AS WRITTEN: {what}");
            }
        }
    }
    for (section, words) in NOT_SHOWN {
        println!("{section} can't be shown here: {words}");
    }
    println!("{} differences shown, {failed} not as written", SHOWN.len() - failed);
    failed == 0
}

fn demand(what: &str, holds: bool) -> Shown {
    if holds {
        Ok(())
    } else {
        Err(what.into())
    }
}

/// Answer and place of ours, read at once into tables of so many records.
fn ours(bytes: &[u8], records: [usize; 3]) -> (usize, usize) {
    let outcome = Library.read(bytes, &mut Tables::with_room(records));
    (outcome.answer, outcome.place)
}

fn accepted(read: &original::Read) -> bool {
    read.is_ok()
}

fn refused(read: original::Read, refusal: Refusal) -> bool {
    read.err() == Some(refusal)
}

/// One input with this pegin stack, count and items; everything else empty.
fn with_pegin(stack: &[u8]) -> Vec<u8> {
    plain(&input(&[]), 1, &[], 0, &[&[0, 0, 0], stack].concat())
}

fn pegin_stacks() -> Shown {
    let stack = |count: u8, lengths: [usize; 6]| -> Vec<u8> {
        let items =
            lengths.iter().take(count.into()).flat_map(|&length| [&[length as u8][..], &vec![1; length]].concat());
        Some(count).into_iter().chain(items).collect()
    };
    let sound = with_pegin(&stack(6, [8, 32, 32, 0, 0, 80]));
    demand(
        "a sound one",
        ours(&sound, [1, 0, 6]) == (0, 0)
            && accepted(&original::read(&sound))
            && accepted(&original::read_older(&sound)),
    )?;
    let others = [
        stack(1, [0; 6]),
        stack(5, [8, 32, 32, 0, 0, 80]),
        [&stack(6, [8, 32, 32, 0, 0, 80])[..], &[0]]
            .concat()
            .into_iter()
            .enumerate()
            .map(|(at, byte)| if at == 0 { 7 } else { byte })
            .collect(),
        stack(6, [7, 32, 32, 0, 0, 80]),
        stack(6, [8, 33, 32, 0, 0, 80]),
        stack(6, [8, 32, 31, 0, 0, 80]),
        stack(6, [8, 32, 32, 0, 0, 79]),
    ];
    for other in others {
        let bytes = with_pegin(&other);
        let refused = [original::read(&bytes), original::read_older(&bytes)]
            .into_iter()
            .all(|read| refused(read, Refusal::PeginStack));
        demand("accepted by ours, refused by the original", ours(&bytes, [1, 0, 7]) == (0, 0) && refused)?;
    }
    // docs/DIFFERENCES.md's own: one empty item, 57 bytes
    demand("57 bytes", with_pegin(&[1, 0]).len() == 57)
}

fn allocation() -> Shown {
    let bytes = plain(&input(&[]).repeat(65_536), 65_536, &[], 0, &[]);
    demand("2,686,991 bytes", bytes.len() == 2_686_991)?;
    demand(
        "ours and the new reader accept",
        ours(&bytes, [65_536, 0, 0]) == (0, 0) && accepted(&original::read(&bytes)),
    )?;
    demand("the older refuses", refused(original::read_older(&bytes), Refusal::Allocation))
}

/// A transaction of so many bytes: one input with a long script.
fn long(length: usize) -> Vec<u8> {
    let script = length - 56;
    plain(&input(&[&[0xfe][..], &(script as u32).to_le_bytes(), &vec![0; script]].concat()), 1, &[], 0, &[])
}

fn limit() -> Shown {
    let (most, more) = (long(LIMIT), long(LIMIT + 1));
    demand("lengths", most.len() == LIMIT && more.len() == LIMIT + 1)?;
    demand(
        "4,000,000 bytes",
        ours(&most, [1, 0, 0]) == (0, 0) && accepted(&original::read(&most)) && accepted(&original::read_older(&most)),
    )?;
    demand(
        "one more",
        ours(&more, [1, 0, 0]) == (2, 3_999_997)
            && accepted(&original::read(&more))
            && accepted(&original::read_older(&more)),
    )
}

fn room() -> Shown {
    let bytes = plain(&input(&[]), 1, &[], 0, &[]);
    demand(
        "the front of it",
        ours(&bytes[..6], [0; 3]) == (4, 5) && refused(original::read(&bytes[..6]), Refusal::End),
    )?;
    demand(
        "the whole",
        ours(&bytes, [0; 3]) == (4, 5) && accepted(&original::read(&bytes)) && accepted(&original::read_older(&bytes)),
    )
}

fn huge_count() -> Shown {
    let bytes = plain(&input(&[]), 1, &[], 0, &[0, 0, 0xff, 0, 0, 0, 0, 1, 0, 0, 0]);
    demand("ours", ours(&bytes, [1, 0, 4]) == (4, 54))?;
    demand(
        "the original",
        refused(original::read(&bytes), Refusal::Allocation)
            && refused(original::read_older(&bytes), Refusal::Allocation),
    )
}

fn names() -> Shown {
    let one_input = |vout: u32, behind: &[u8]| {
        let input = [&[0; 32][..], &vout.to_le_bytes(), &[0], &[0xff; 4], behind].concat();
        plain(&input, 1, &[], 0, &[])
    };
    let rows: [(Vec<u8>, (usize, usize), Refusal); 6] = [
        (vec![2, 0, 0, 0, 0, 0, 0, 0, 0, 0], (1, 10), Refusal::End),
        (vec![2, 0, 0, 0, 0, 0xfd, 0, 0], (3, 5), Refusal::NotShortest),
        (plain(&[], 0, &[2, 0, 0, 0], 1, &[]), (5, 7), Refusal::Prefix),
        (one_input(1 << 31, &[0; 66]), (6, 47), Refusal::NullIssuance),
        (vec![2, 0, 0, 0, 2, 0, 0, 0, 0, 0, 0], (7, 4), Refusal::Flag),
        (vec![2, 0, 0, 0, 1, 0, 0, 0, 0, 0, 0], (8, 4), Refusal::NoWitnesses),
    ];
    for (bytes, answer, refusal) in rows {
        demand(&format!("{refusal:?}: ours"), ours(&bytes, [1, 1, 1]) == answer)?;
        demand(&format!("{refusal:?}: new"), refused(original::read(&bytes), refusal))?;
        demand(&format!("{refusal:?}: older"), refused(original::read_older(&bytes), refusal))?;
    }
    let behind = [2, 0, 0, 0, 0, 0, 0, 0, 0, 0, 0, 0];
    let strict = Library::read_strictly(&behind, &mut Tables::default());
    demand("a follower: ours", (strict.answer, strict.place) == (9, 11))?;
    demand("a follower: older", original::read_older_strictly(&behind).err() == Some(Refusal::Follower))
}

fn first_fault() -> Shown {
    let front = [2, 0, 0, 0, 2, 1];
    demand("no input record", ours(&front, [0; 3]) == (4, 5) && refused(original::read(&front), Refusal::End))?;
    let cut = with_pegin(&[7]);
    demand(
        "a pegin count of 7",
        cut.len() == 56 && ours(&cut, [1, 0, 9]) == (1, 56) && refused(original::read(&cut), Refusal::PeginStack),
    )
}

fn huge_length() -> Shown {
    let bytes = [&[2, 0, 0, 0, 0, 1][..], &[0; 36], &[0xff, 0, 0, 0, 0, 1, 0, 0, 0]].concat();
    demand("ours", ours(&bytes, [1, 0, 0]) == (2, 42))?;
    demand(
        "the original, where usize has 64 bits",
        refused(original::read(&bytes), Refusal::Allocation)
            && refused(original::read_older(&bytes), Refusal::Allocation),
    )
}

fn ended() -> Shown {
    let bytes = [2, 0, 0, 0, 0, 0, 0, 0, 0, 0];
    let outcomes = Library::after_the_end(&bytes, &[0], &mut Tables::default());
    demand("ours", outcomes.map(|outcome| (outcome.answer, outcome.place, outcome.taken)) == [(1, 10, 0); 2])
}

/// One input with this vout and these flags; with an issuance of one unit if it has that flag.
fn spending(vout: u32, pegin: bool, issuance: bool) -> Transaction {
    let amount = elements::confidential::Value::Explicit(1);
    let asset_issuance =
        if issuance { AssetIssuance { amount, ..AssetIssuance::null() } } else { AssetIssuance::null() };
    Transaction {
        version: 2,
        lock_time: elements::LockTime::ZERO,
        input: vec![TxIn {
            previous_output: OutPoint { txid: Txid::from_byte_array([0; 32]), vout },
            is_pegin: pegin,
            script_sig: Script::new(),
            sequence: Sequence::MAX,
            asset_issuance,
            witness: TxInWitness::empty(),
        }],
        output: Vec::new(),
    }
}

/// The records of such an input over what the original writes of it, handed to our writer.
fn written_by_ours(transaction: &Transaction, source: &[u8]) -> (usize, usize) {
    let input = &transaction.input[0];
    let mut record = [0; INPUT];
    record[0] = 6;
    record[1] = input.previous_output.vout;
    record[2] = PEGIN * u32::from(input.is_pegin) | ISSUANCE * u32::from(input.has_issuance());
    record[3] = 43;
    record[5] = u32::MAX;
    if input.has_issuance() {
        (record[6], record[7], record[9]) = (47, 1, 1);
    }
    let head = [2, 0, 1, 0, 0, 0, 0];
    let order = Order { head: &head, inputs: &record, outputs: &[], items: &[], source };
    let written = Library.write(&order, &mut [0; 200]);
    (written.answer, written.place)
}

fn outpoints() -> Shown {
    // vout, flags, what is written as vout, what is read again, bytes read of bytes written
    let all = [
        (0x4000_0000, false, false, 0x4000_0000, (0, true), (52, 52)),
        (u32::MAX, true, false, u32::MAX, (u32::MAX, false), (52, 52)),
        (0x3fff_ffff, true, true, u32::MAX, (u32::MAX, false), (52, 126)),
    ];
    for (vout, pegin, issuance, raw, read, lengths) in all {
        let transaction = spending(vout, pegin, issuance);
        let bytes = original::write(&transaction);
        demand(
            "both writers",
            bytes == original::write_older(&transaction)
                && bytes.len() == lengths.1
                && bytes[38..42] == u32::to_le_bytes(raw),
        )?;
        let (again, taken) = original::read(&bytes).map_err(|refusal| format!("{refusal:?}"))?;
        demand(
            "another outpoint",
            (again.input[0].previous_output.vout, again.input[0].is_pegin) == read
                && taken == lengths.0
                && again != transaction,
        )?;
        demand("ours", written_by_ours(&transaction, &bytes) == (12, 0))?;
    }
    Ok(())
}

fn flag() -> Shown {
    let empty = Transaction { version: 2, lock_time: elements::LockTime::ZERO, input: Vec::new(), output: Vec::new() };
    let head = [2, 1, 0, 0, 0, 0, 0];
    let order = Order { head: &head, inputs: &[], outputs: &[], items: &[], source: &[] };
    let written = Library.write(&order, &mut [0; 20]);
    demand("ours", (written.answer, written.place) == (8, 4))?;
    demand("the original", original::write(&empty)[4] == 0 && View::of(&order).transaction() == Some(empty))
}

fn null_issuance() -> Shown {
    let mut transaction = spending(0, false, false);
    transaction.input[0].asset_issuance.asset_entropy = AssetEntropy::from_byte_array([7; 32]);
    let bytes = original::write(&transaction);
    demand(
        "a plain input",
        bytes == original::write(&spending(0, false, false)) && bytes == original::write_older(&transaction),
    )?;
    let mut record = [0; INPUT];
    (record[2], record[5]) = (ISSUANCE, u32::MAX);
    let head = [2, 0, 1, 0, 0, 0, 0];
    let source = [0; 100];
    let order = Order { head: &head, inputs: &record, outputs: &[], items: &[], source: &source };
    let written = Library.write(&order, &mut [0; 200]);
    demand("ours", (written.answer, written.place) == (6, 0))
}

fn short_output() -> Shown {
    let head = [2, 0, 0, 0, 0, 0, 0];
    let order = Order { head: &head, inputs: &[], outputs: &[], items: &[], source: &[] };
    let written = Library.write(&order, &mut [0; 10]);
    demand("ours", (written.answer, written.place) == (14, 0))
}

fn fee() -> Shown {
    let bytes = plain(&[], 0, &[0; 4], 1, &[]);
    let mut tables = Tables::with_room([0, 1, 0]);
    Library.read(&bytes, &mut tables);
    let record: &[u32; OUTPUT] = tables.outputs[..].try_into().map_err(|_| "no record")?;
    let (transaction, _) = original::read(&bytes).map_err(|refusal| format!("{refusal:?}"))?;
    demand("a fee by ours alone", Library.is_fee(record) && !transaction.output[0].is_fee())
}
