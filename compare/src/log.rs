//! The log of a reading: which number enters which table after how many bytes, and how and after how many bytes the reading ends.
//! The plain reader writes it; the driver, the tally and the slips read it.

use crate::paper::Head;

// Names of the fields, so that it can be counted where each refusal was seen.
macro_rules! fields {
    ($($name:ident),* $(,)?) => {
        #[derive(Clone, Copy, PartialEq, Eq, Debug)]
        pub enum Field { $($name),* }
        pub const FIELDS: &[Field] = &[$(Field::$name),*];
    };
}

fields! {
    Version, Flag, InputCount, Txid, Vout, Script, Sequence, BlindingNonce, Entropy,
    AmountPrefix, AmountExplicit, AmountCommitment, KeysPrefix, KeysExplicit, KeysCommitment,
    OutputCount, AssetPrefix, AssetPart, ValuePrefix, ValueExplicit, ValueCommitment, NoncePrefix, NoncePart,
    OutputScript, Locktime, AmountProof, KeysProof, ScriptCount, ScriptItem, PeginCount, PeginItem,
    SurjectionProof, RangeProof, Whole,
}

/// Which part of a field: a fixed one is all `Fixed`; counts and lengths have two parts, and then the body.
#[derive(Clone, Copy, PartialEq, Eq, Debug)]
pub enum Part {
    Fixed,
    First,
    Further,
    Body,
}

pub const PARTS: [Part; 4] = [Part::Fixed, Part::First, Part::Further, Part::Body];

/// A number that enters a table when `at` bytes have been taken.
#[derive(Clone, Copy, PartialEq, Eq, Debug)]
pub struct Entry {
    pub at: usize,
    pub table: usize,
    pub index: usize,
    pub value: u32,
}

#[derive(Clone, Copy, PartialEq, Eq, Debug)]
pub struct Refusal {
    pub number: usize,
    pub place: usize,
    pub field: Field,
    pub part: Part,
}

#[derive(Clone, Copy, PartialEq, Eq, Debug)]
pub enum Ending {
    /// The bytes end within this field.
    More(Field, Part),
    Refused(Refusal),
    Finished(Head),
}

/// What the paper says of a list of bytes and of tables with so much room.
#[derive(Clone, PartialEq, Eq, Debug)]
pub struct Reading {
    pub entries: Vec<Entry>,
    pub ending: Ending,
    /// The bytes taken when the reading ended; all of them if it wants more.
    pub taken: usize,
}

impl Reading {
    pub fn empty() -> Reading {
        Reading { entries: Vec::new(), ending: Ending::More(Field::Version, Part::Fixed), taken: 0 }
    }
}
