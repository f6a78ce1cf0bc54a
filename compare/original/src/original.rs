//! The original's side: its new reader and writer, which document 01 takes over, and its older ones.

use elements::encode;
use elements::{Transaction, TransactionDecoder};
use encoding::{CompactSizeDecoderError, Decoder, UnexpectedEofError};
use std::error::Error;

/// Why the original refuses, as far as its errors tell. They carry no place.
#[derive(Clone, Copy, PartialEq, Eq, PartialOrd, Ord, Debug)]
pub enum Refusal {
    /// The bytes end too early.
    End,
    /// A count or length isn't in shortest form: the shims' word.
    NotShortest,
    Prefix,
    NullIssuance,
    Flag,
    NoWitnesses,
    /// A pegin stack of other than 0 or 6 items, or an item of another length than it may have.
    PeginStack,
    /// A count or length above what may be allocated.
    Allocation,
    /// Bytes behind: the older `deserialize` alone.
    Follower,
    /// Any other error; no input should show one.
    Other,
}

pub const REFUSALS: [Refusal; 10] = [
    Refusal::End,
    Refusal::NotShortest,
    Refusal::Prefix,
    Refusal::NullIssuance,
    Refusal::Flag,
    Refusal::NoWitnesses,
    Refusal::PeginStack,
    Refusal::Allocation,
    Refusal::Follower,
    Refusal::Other,
];

/// A transaction and the bytes taken for it, or why there is none.
pub type Read = Result<(Transaction, usize), Refusal>;

/// The new reader, in one piece.
pub fn read(bytes: &[u8]) -> Read {
    read_pieces(bytes, &[], |_, _| {})
}

/// The new reader, fed these pieces and then the rest. `heard` is told after each piece whether more is wanted, and how
/// many bytes of it were taken.
pub fn read_pieces(bytes: &[u8], pieces: &[usize], mut heard: impl FnMut(bool, usize)) -> Read {
    let mut decoder = TransactionDecoder::default();
    let rest = [bytes.len() - pieces.iter().sum::<usize>()];
    let mut at = 0;
    for &piece in pieces.iter().chain(&rest) {
        let mut slice = &bytes[at..at + piece];
        let status = decoder.push_bytes(&mut slice).map_err(|error| refusal(&error))?;
        let taken = piece - slice.len();
        heard(status.needs_more(), taken);
        if !status.needs_more() {
            return decoder.end().map(|transaction| (transaction, at + taken)).map_err(|error| refusal(&error));
        }
        at += piece;
    }
    decoder.end().map(|transaction| (transaction, at)).map_err(|error| refusal(&error))
}

/// The older reader.
pub fn read_older(bytes: &[u8]) -> Read {
    encode::deserialize_partial(bytes).map_err(older_refusal)
}

/// The older reader, that wants the bytes to end with the transaction.
pub fn read_older_strictly(bytes: &[u8]) -> Result<Transaction, Refusal> {
    encode::deserialize(bytes).map_err(older_refusal)
}

/// The new writer.
pub fn write(transaction: &Transaction) -> Vec<u8> {
    encoding::encode_to_vec(transaction)
}

/// The older writer.
pub fn write_older(transaction: &Transaction) -> Vec<u8> {
    encode::serialize(transaction)
}

/// By the innermost error, most of which are private: so by the words in which the text shows it.
fn refusal(error: &(dyn Error + 'static)) -> Refusal {
    let mut error = error;
    while let Some(source) = error.source() {
        error = source;
    }
    if error.is::<UnexpectedEofError>() {
        return Refusal::End;
    }
    if let Some(error) = error.downcast_ref() {
        return match error {
            CompactSizeDecoderError::UnexpectedEof => Refusal::End,
            CompactSizeDecoderError::NonMinimal(_) => Refusal::NotShortest,
            CompactSizeDecoderError::ExceedsLimit(_) => Refusal::Allocation,
        };
    }
    let words = error.to_string();
    let known = [
        ("not enough witness elements", Refusal::End),
        ("error decoding pegin witness: needed at least 1 bytes", Refusal::End),
        ("error decoding pegin witness field merkle proof: needed at least 80 bytes", Refusal::PeginStack),
        ("expected length ", Refusal::PeginStack),
        ("confidential prefix ", Refusal::Prefix),
        ("input had issuance flag set, but null issuance", Refusal::NullIssuance),
        ("invalid witness flag ", Refusal::Flag),
        ("witness flag set but all witnesses were empty", Refusal::NoWitnesses),
    ];
    known.iter().find(|(start, _)| words.starts_with(start)).map_or(Refusal::Other, |known| known.1)
}

fn older_refusal(error: encode::Error) -> Refusal {
    match error {
        encode::Error::Io(error) if error.kind() == std::io::ErrorKind::UnexpectedEof => Refusal::End,
        encode::Error::NonMinimalVarInt => Refusal::NotShortest,
        encode::Error::InvalidConfidentialPrefix(_) => Refusal::Prefix,
        encode::Error::OversizedVectorAllocation { .. } => Refusal::Allocation,
        encode::Error::PeginWitness(error) => refusal(&error),
        encode::Error::Witness(error) => refusal(&error),
        encode::Error::ParseFailed(words) => match words {
            "superfluous asset issuance" => Refusal::NullIssuance,
            "bad witness flag in tx" => Refusal::Flag,
            "witness flag set but no witnesses were given" => Refusal::NoWitnesses,
            "Invalid length" => Refusal::Allocation,
            "data not consumed entirely when explicitly deserializing" => Refusal::Follower,
            _ => Refusal::Other,
        },
        _ => Refusal::Other,
    }
}

/// The refusal that is one of ours, by docs/DIFFERENCES.md 3.1; 2 and 4 are none of the original's.
pub fn of_ours(number: usize) -> Option<Refusal> {
    match number {
        1 => Some(Refusal::End),
        3 => Some(Refusal::NotShortest),
        5 => Some(Refusal::Prefix),
        6 => Some(Refusal::NullIssuance),
        7 => Some(Refusal::Flag),
        8 => Some(Refusal::NoWitnesses),
        _ => None,
    }
}
