//! Refusals: a number, its name, and a place.

#![forbid(unsafe_code)]

use std::fmt;

/// A numbered refusal with its place. Only the library gives one.
///
/// ```
/// use takzulit::{RefusalKind, Transaction};
///
/// // the witness flag is 2
/// let refusal = Transaction::read_strict(&[2, 0, 0, 0, 2, 0, 0, 0, 0, 0, 0], &mut [], &mut [], &mut []).unwrap_err();
/// assert_eq!((refusal.kind(), refusal.number(), refusal.place()), (RefusalKind::BadFlag, 7, 4));
/// assert_eq!(refusal.to_string(), "refusal 7 at 4: a witness flag above 1");
/// ```
#[derive(Clone, Copy, Debug, PartialEq, Eq, Hash)]
pub struct Refusal {
    number: usize,
    place: usize,
}

impl Refusal {
    pub(crate) fn new(number: usize, place: usize) -> Refusal {
        Refusal { number, place }
    }

    /// What is refused.
    pub fn kind(&self) -> RefusalKind {
        RefusalKind::LISTED.iter().copied().find(|kind| *kind as usize == self.number).unwrap_or(RefusalKind::Unlisted)
    }

    /// The number, as document 01 gives it.
    pub fn number(&self) -> usize {
        self.number
    }

    /// Reading: the byte, from the transaction's start. Writing: for 6, 12 and 13 the record, from 0 in its own table (the number of inputs, where
    /// the items don't add up); 4 for 7 and 8; otherwise 0.
    pub fn place(&self) -> usize {
        self.place
    }
}

impl fmt::Display for Refusal {
    fn fmt(&self, f: &mut fmt::Formatter<'_>) -> fmt::Result {
        write!(f, "refusal {} at {}: {}", self.number, self.place, self.kind())
    }
}

impl std::error::Error for Refusal {}

/// What is refused, by name. `kind as usize` is document 01's number, but for [`Unlisted`](Self::Unlisted).
///
/// More will come, so a `match` wants a last arm; let that one keep the gate shut.
#[derive(Clone, Copy, Debug, PartialEq, Eq, Hash)]
#[non_exhaustive]
pub enum RefusalKind {
    /// The bytes end inside the transaction: a reading was finished while it wanted more. Placed at the bytes taken.
    EndsEarly = 1,
    /// A field would end past 4,000,000 bytes. Placed at the field's start; for a body, or a count's further bytes, at the length's or count's. In
    /// writing: the written length exceeds them.
    LimitPassed = 2,
    /// A count or length that is not in its shortest form. Placed at its start.
    NotShortest = 3,
    /// A count that exceeds the records left in its table. Placed at its start.
    NoRecordLeft = 4,
    /// A prefix that is not listed. Placed there.
    BadPrefix = 5,
    /// An issuance flag, and both amount and keys null. Placed at the issuance.
    NullIssuance = 6,
    /// A witness flag above 1, told after the locktime. Placed at 4.
    BadFlag = 7,
    /// The witness flag is 1, and all witnesses are empty. Placed at 4.
    EmptyWitnesses = 8,
    /// Strict reading: bytes follow the transaction. Placed at the first of them.
    BytesFollow = 9,
    /// The tables have other lengths than at the fresh start. In writing: a count exceeds its table. In reading only
    /// [`resume_unchecked`](crate::TransactionDecoder::resume_unchecked) leads there.
    TablesDiffer = 10,
    /// The state fails the range test of `docs/STATE.md`. Only [`resume_unchecked`](crate::TransactionDecoder::resume_unchecked) leads there.
    StateForged = 11,
    /// Writing: an outpoint that can't be told apart, since it would be read as another.
    OutpointUnclear = 12,
    /// Writing: a record breaks the tables' rules, or a body lies outside the source.
    BadRecord = 13,
    /// Writing: the output has no room.
    OutputShort = 14,
    /// A number that this crate does not know: the archive that was linked is not the one that it was made for.
    Unlisted = -1,
}

impl RefusalKind {
    /// All kinds that document 01 numbers, in its order.
    pub const LISTED: &'static [RefusalKind] = &[
        RefusalKind::EndsEarly,
        RefusalKind::LimitPassed,
        RefusalKind::NotShortest,
        RefusalKind::NoRecordLeft,
        RefusalKind::BadPrefix,
        RefusalKind::NullIssuance,
        RefusalKind::BadFlag,
        RefusalKind::EmptyWitnesses,
        RefusalKind::BytesFollow,
        RefusalKind::TablesDiffer,
        RefusalKind::StateForged,
        RefusalKind::OutpointUnclear,
        RefusalKind::BadRecord,
        RefusalKind::OutputShort,
    ];

    /// The name in words.
    pub fn words(self) -> &'static str {
        match self {
            RefusalKind::EndsEarly => "the bytes end inside the transaction",
            RefusalKind::LimitPassed => "longer than 4,000,000 bytes",
            RefusalKind::NotShortest => "a count or length is not in its shortest form",
            RefusalKind::NoRecordLeft => "a count exceeds the records left in its table",
            RefusalKind::BadPrefix => "a prefix that is not listed",
            RefusalKind::NullIssuance => "an issuance flag with a null issuance",
            RefusalKind::BadFlag => "a witness flag above 1",
            RefusalKind::EmptyWitnesses => "the witness flag is 1 and all witnesses are empty",
            RefusalKind::BytesFollow => "bytes follow the transaction",
            RefusalKind::TablesDiffer => "the tables have other lengths than at the start, or a count exceeds its table",
            RefusalKind::StateForged => "the reading state is out of its range",
            RefusalKind::OutpointUnclear => "an outpoint that can't be told apart",
            RefusalKind::BadRecord => "a record breaks the tables' rules, or a body lies outside the source",
            RefusalKind::OutputShort => "the output is too short",
            RefusalKind::Unlisted => "a number that is not listed",
        }
    }
}

impl fmt::Display for RefusalKind {
    fn fmt(&self, f: &mut fmt::Formatter<'_>) -> fmt::Result {
        f.write_str(self.words())
    }
}

#[cfg(test)]
mod tests {
    use super::*;

    #[test]
    fn every_number_has_its_kind_and_its_words() {
        for (number, &kind) in (1..).zip(RefusalKind::LISTED) {
            assert_eq!(kind as usize, number);
            assert_eq!(Refusal::new(number, 3).kind(), kind);
            assert_eq!(Refusal::new(number, 3).to_string(), format!("refusal {number} at 3: {}", kind.words()));
        }
    }

    #[test]
    fn a_number_that_is_not_listed_is_a_refusal_all_the_same() {
        for number in [15, 254, usize::MAX] {
            let refusal = Refusal::new(number, 0);
            assert_eq!((refusal.kind(), refusal.number()), (RefusalKind::Unlisted, number));
        }
    }
}
