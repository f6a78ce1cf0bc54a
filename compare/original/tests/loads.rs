//! Document 01's "Loads to try": those that aren't marked P "are run against Rust", and here they are; the marked ones
//! too, since it costs nothing. "The crate's own test transactions" aren't in the text that came with the request.

use elements::confidential::{Asset, Nonce, Value};
use elements::Transaction;
use original::cases::{input, plain};
use original::original::{read, read_older, write, write_older, Refusal};
use original::ours::{Library, Ours, Tables};

/// What both of the original's readers say, which have to agree.
fn original(bytes: &[u8]) -> Result<(Transaction, usize), Refusal> {
    let (new, older) = (read(bytes), read_older(bytes));
    assert_eq!(new, older);
    new
}

/// Our answer, place and bytes taken, and the tables.
fn ours(bytes: &[u8], records: [usize; 3]) -> ((usize, usize, usize), Tables) {
    let mut tables = Tables::with_room(records);
    let outcome = Library.read(bytes, &mut tables);
    ((outcome.answer, outcome.place, outcome.taken), tables)
}

/// Read by the original with so many bytes taken, and written by it as they were.
fn round_trip(bytes: &[u8]) -> Transaction {
    let (transaction, taken) = original(bytes).expect("the original reads it");
    assert_eq!(taken, bytes.len());
    assert_eq!(write(&transaction), bytes);
    assert_eq!(write_older(&transaction), bytes);
    assert_eq!(transaction.size(), bytes.len());
    transaction
}

/// "One input (txid, vout 0, empty script, sequence 0xfffffffe), one output (asset prefix 1, explicit 400, null nonce,
/// empty script), flag 0".
fn load_96() -> Vec<u8> {
    let input = [&[0x11; 32][..], &[0; 4], &[0], &[0xfe, 0xff, 0xff, 0xff]].concat();
    let output = [&[1][..], &[0x22; 32], &[1, 0, 0, 0, 0, 0, 0, 1, 0x90], &[0], &[0]].concat();
    plain(&input, 1, &output, 1, &[])
}

#[test]
fn one_input_and_one_output_of_96_bytes() {
    let bytes = load_96();
    assert_eq!(bytes.len(), 96);
    let transaction = round_trip(&bytes);
    assert_eq!(
        (transaction.version, transaction.lock_time.to_consensus_u32(), transaction.has_witness()),
        (2, 0, false)
    );
    let (input, output) = (&transaction.input[0], &transaction.output[0]);
    assert_eq!((input.previous_output.txid.to_byte_array(), input.previous_output.vout), ([0x11; 32], 0));
    assert_eq!((input.is_pegin, input.has_issuance(), input.script_sig.len()), (false, false, 0));
    assert_eq!(input.sequence.to_consensus_u32(), 0xffff_fffe);
    assert!(matches!(output.asset, Asset::Explicit(asset) if asset.to_byte_array() == [0x22; 32]));
    assert_eq!((output.value, output.nonce, output.script_pubkey.len()), (Value::Explicit(400), Nonce::Null, 0));
    let (answer, tables) = ours(&bytes, [1, 1, 0]);
    assert_eq!(answer, (0, 0, 96));
    assert_eq!(tables.inputs, [6, 0, 0, 43, 0, 4294967294, 0, 0, 0, 0, 0, 0, 0, 0, 0, 0, 0, 0, 0, 0]);
    assert_eq!(tables.outputs, [1, 48, 1, 81, 0, 400, 0, 90, 92, 0, 0, 0, 0, 0]);
}

#[test]
fn the_same_with_flag_1_of_103_bytes() {
    let mut bytes = load_96();
    bytes[4] = 1;
    bytes.extend_from_slice(&[0, 0, 1, 0, 0, 0, 0]);
    let transaction = round_trip(&bytes);
    assert_eq!(transaction.input[0].witness.script_witness.to_vec(), [Vec::<u8>::new()]);
    assert!(transaction.input[0].witness.pegin_witness.is_empty() && transaction.output[0].witness.is_empty());
    let (answer, tables) = ours(&bytes, [1, 1, 1]);
    assert_eq!((answer, tables.items), ((0, 0, 103), vec![100, 0]));
}

#[test]
fn vout_0x80000000_and_null_issuance() {
    let input = [&[0; 32][..], &0x8000_0000_u32.to_le_bytes(), &[0], &[0xff; 4], &[0; 66]].concat();
    let bytes = plain(&input, 1, &[], 0, &[]);
    assert_eq!(original(&bytes).err(), Some(Refusal::NullIssuance));
    assert_eq!(ours(&bytes, [1, 0, 0]).0, (6, 47, 113));
}

#[test]
fn limits_256_inputs_pass_and_257_give_4() {
    for inputs in [256, 257] {
        let bytes = plain(&input(&[]).repeat(inputs), inputs, &[], 0, &[]);
        assert_eq!(round_trip(&bytes).input.len(), inputs);
        let answer = ours(&bytes, [256, 0, 0]).0;
        assert_eq!(answer, if inputs == 256 { (0, 0, bytes.len()) } else { (4, 5, 8) });
    }
}

#[test]
fn limits_a_field_ending_at_4_000_000_passes() {
    let script = [&[0xfe][..], &3_999_944_u32.to_le_bytes(), &vec![0x6a; 3_999_944]].concat();
    let bytes = plain(&input(&script), 1, &[], 0, &[]);
    assert_eq!(bytes.len(), 4_000_000);
    assert_eq!(round_trip(&bytes).input[0].script_sig.len(), 3_999_944);
    assert_eq!(ours(&bytes, [1, 0, 0]).0, (0, 0, 4_000_000));
}

/// The marked ones of 11 bytes.
#[test]
fn marked_the_empty_transaction() {
    let bytes = |flag: u8| [2, 0, 0, 0, flag, 0, 0, 0, 0, 0, 0];
    round_trip(&bytes(0));
    assert_eq!(ours(&bytes(0), [0; 3]).0, (0, 0, 11));
    assert_eq!((original(&bytes(1)).err(), ours(&bytes(1), [0; 3]).0), (Some(Refusal::NoWitnesses), (8, 4, 11)));
    assert_eq!((original(&bytes(2)).err(), ours(&bytes(2), [0; 3]).0), (Some(Refusal::Flag), (7, 4, 11)));
    assert_eq!((original(&bytes(0)[..10]).err(), ours(&bytes(0)[..10], [0; 3]).0), (Some(Refusal::End), (1, 10, 10)));
    let longer = [&bytes(0)[..], &[0]].concat();
    assert_eq!(original(&longer).map(|read| read.1), Ok(11));
    assert_eq!(original::original::read_older_strictly(&longer), Err(Refusal::Follower));
}

/// The marked lengths, as those of an input's script; and the marked vouts.
#[test]
fn marked_lengths_and_vouts() {
    let with = |vout: u32, script: &[u8], behind: &[u8]| {
        plain(&[&[0; 32][..], &vout.to_le_bytes(), script, &[0xff; 4], behind].concat(), 1, &[], 0, &[])
    };
    for (form, length) in [(&[0xfc][..], 252), (&[0xfd, 0xfd, 0], 253), (&[0xfe, 0, 0, 1, 0], 65_536)] {
        let bytes = with(0, &[form, &vec![5; length]].concat(), &[]);
        assert_eq!(round_trip(&bytes).input[0].script_sig.len(), length);
        assert_eq!(ours(&bytes, [1, 0, 0]).1.inputs[4] as usize, length);
    }
    for form in [&[0xfd, 0xfc, 0][..], &[0xfe, 0xff, 0xff, 0, 0]] {
        let bytes = with(0, &[form, &vec![5; 65_536]].concat(), &[]);
        assert_eq!((original(&bytes).err(), ours(&bytes, [1, 0, 0]).0 .0), (Some(Refusal::NotShortest), 3));
    }
    let coinbase = &round_trip(&with(u32::MAX, &[0], &[])).input[0];
    assert_eq!((coinbase.previous_output.vout, coinbase.is_pegin, coinbase.has_issuance()), (u32::MAX, false, false));
    let issuance = [&[0; 64][..], &[1, 0, 0, 0, 0, 0, 0, 0, 1], &[0]].concat();
    let issuing = &round_trip(&with(0xbfff_ffff, &[0], &issuance)).input[0];
    assert_eq!((issuing.previous_output.vout, issuing.is_pegin, issuing.has_issuance()), (0x3fff_ffff, false, true));
}
