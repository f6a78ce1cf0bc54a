//! The judge is judged: deliberate slips, any one of which can be switched on in the plain reader and writer.
//!
//! Each is a mistake that someone could make with the paper at hand. `compare slips` switches them on one after
//! the other and demands that the driver finds a difference to the fast forms. A slip that isn't found means
//! that some rule of the paper isn't tried by the inputs.
//!
//! `plain.rs` asks `is` or `pick` in one line; the longer hooks stand below.

use crate::log::{Ending, Field, Part, Reading};
use crate::paper::*;

macro_rules! slips {
    ($($name:ident: $words:expr;)*) => {
        #[derive(Clone, Copy, PartialEq, Eq, Debug)]
        pub enum Slip { None, $($name),* }
        /// Every slip with the words that tell it; `--slip N` counts from 1.
        pub const SLIPS: &[(Slip, &str)] = &[$((Slip::$name, $words)),*];
    };
}

slips! {
    // --- the reader: layout
    AmountReadLittle: "reader: an explicit amount is read little-endian";
    AllOnesSplit: "reader: bits 30 and 31 of raw vout 0xffffffff are taken as flags and cleared";
    FlagBitsSwapped: "reader: bit 30 is the issuance flag, bit 31 the pegin flag";
    FlagBitsKept: "reader: the flag bits stay in vout";
    Prefix9Refused: "reader: value prefix 9 is refused";
    Prefix11Refused: "reader: asset prefix 11 is refused";
    Prefix3Refused: "reader: nonce prefix 3 is refused";
    AssetPrefix2Allowed: "reader: asset prefix 2 is accepted";
    ValuePrefix10Allowed: "reader: value prefix 10 is accepted";
    ShortestFormOff: "reader: feffff0000 is accepted";
    EightBytesAlwaysShortest: "reader: the 8-byte form isn't judged for shortness";
    CountWrapsAt32: "reader: a count is compared with its table modulo 2^32";
    LengthWrapsAt32: "reader: a length is cut to 32 bits";
    EndWrapsAt64: "reader: a body whose end wraps at 2^64 passes the limit";
    NullIssuanceAccepted: "reader: a null issuance is accepted";
    NullIssuanceByAmount: "reader: an issuance with a null amount is null, whatever its keys";
    NullIssuanceByKeys: "reader: an issuance with null keys is null, whatever its amount";
    ProofsSwapped: "reader: an output's range proof comes before its surjection proof";
    FlagTwoAllowed: "reader: flag 2 is accepted";
    EmptyWitnessesAccepted: "reader: flag 1 with all witnesses empty is accepted";
    EmptinessOfEach: "reader: each input's witness has to be non-empty";
    EmptinessOfInputsOnly: "reader: outputs' witnesses don't count for emptiness";
    EmptyItemsCountAsNone: "reader: stack items of length 0 count as none";
    // --- the reader: order of refusals
    FlagJudgedEarly: "reader: the flag is judged before the inputs";
    FlagJudgedBeforeLocktime: "reader: the flag is judged before the locktime";
    FlagJudgedAfterWitnesses: "reader: a flag above 1 is judged after reading witnesses";
    EmptyBeforeFlag: "reader: 8 comes before 7";
    RoomBeforeShortest: "reader: 4 is judged before 3";
    BodyLimitBeforeShortest: "reader: 2 for the body is judged before 3";
    LimitBeforeRoom: "reader: 2 of the next field comes before 4";
    LimitBeforeNullIssuance: "reader: 2 of the next field comes before 6";
    LimitWaitsForByte: "reader: 2 waits for the field's first byte";
    FurtherBytesUnlimited: "reader: the limit isn't judged for a count's further bytes";
    LimitOnePast: "reader: a field may end at 4,000,001";
    LimitOneShort: "reader: a field may not end at 4,000,000";
    // --- the reader: places and bytes taken
    PrefixPlace: "reader: 5 is placed behind the prefix";
    ShortestPlace: "reader: 3 is placed at the last byte of the count";
    RoomPlaceBehindCount: "reader: 4 is placed behind the count";
    BodyLimitPlacedAtBody: "reader: 2 for a body is placed at the body";
    FurtherBytesPlace: "reader: 2 for a count's further bytes is placed at them";
    NullIssuancePlace: "reader: 6 is placed at the keys' prefix";
    EmptyPlace: "reader: 8 is placed at the end";
    OnePlaceOff: "reader: 1 is placed at the last byte taken";
    SettlingByteNotTaken: "reader: the byte that settles a refusal isn't counted as taken";
    LengthCountsFollowers: "reader: the length in bytes counts the bytes behind";
    StrictIsPlain: "reader: the strict form never gives 9";
    StrictPlaceOff: "reader: 9 is placed one behind";
    StrictTakesFollower: "reader: with 9 the follower counts as taken";
    // --- the reader: tables
    RoomForOneMore: "reader: a count may exceed the records left by one";
    RoomOfWholeTable: "reader: a stack's count is compared with the whole item table";
    FirstIndexZeroWithoutItems: "reader: the first item's index is 0 if the script stack has no items";
    FirstIndexOfScriptOnly: "reader: the first item's index skips pegin items";
    EmptyBodyAtZero: "reader: an empty body has position 0";
    PositionBehindPrefix: "reader: an output's asset, value and nonce have the position behind the prefix";
    IssuanceBehindNonce: "reader: the issuance position is the entropy's";
    FreshLeavesTables: "reader: a fresh start leaves the last input record as it was";
    FreshLeavesSurplus: "reader: a fresh start leaves the surplus numbers as they were";
    RefusedLeavesTables: "reader: a refusal leaves the tables as they are";
    RepeatLeavesTables: "reader: a refused reading called again leaves the tables as they are";
    RepeatZeroesFinished: "reader: a finished reading called again sets the tables to 0";
    FlagsEnterLate: "reader: flags enter after vout";
    TxidEntersEarly: "reader: the txid's position enters before its last byte";
    IssuanceEntersEarly: "reader: the issuance position enters before the blinding nonce's last byte";
    HighEntersEarly: "reader: the high half enters with its own four bytes";
    PrefixPositionLate: "reader: a prefix's position enters after the prefix";
    LengthEntersLate: "reader: a body's length enters after the length's last byte";
    FirstIndexEarly: "reader: the first item's index enters before the script count";
    // --- the reader: calls
    HeadShowsEarly: "reader: the version shows while more is wanted";
    MorePlaced: "reader: more wanted has the bytes taken as its place";
    HeadNotRepeated: "reader: the head numbers don't show again";
    PlaceNotRepeated: "reader: a repeated refusal has place 0";
    FinishAlwaysOne: "reader: finishing a refused reading gives 1";
    OneDoesNotEnd: "reader: after refusal 1 the reading goes on";
    EmptyPieceEnds: "reader: an empty piece finishes the reading";
    SizesByRecords: "reader: 10 compares whole records";
    MisuseOnlyWhileWanted: "reader: 10 isn't given to an ended reading";
    MisuseZeroes: "reader: 10 sets the tables to 0";
    // --- the writer: order
    FlagBeforeCounts: "writer: 7 comes before 10";
    EmptyBeforeRecords: "writer: 8 comes before 13";
    TwelveBeforeThirteen: "writer: 12 comes before 13";
    SixBeforeTwelve: "writer: 6 comes before 12";
    AllThirteensFirst: "writer: every input's 13 comes before any 12";
    SumBeforeRecords: "writer: the sum of the items is judged before the records";
    LongBeforeEmpty: "writer: 2 comes before 8";
    ShortBeforeLong: "writer: 14 comes before 2";
    // --- the writer: what is judged
    CountsAgainstAnyRecord: "writer: 10 counts a broken record as a whole one";
    FlagCutToByte: "writer: the flag is cut to a byte";
    InputFlagsUnjudged: "writer: input flags above 3 are accepted";
    NoncePrefixUnjudged: "writer: any nonce prefix is accepted";
    AbsentIssuanceUnjudged: "writer: issuance numbers aren't judged without the flag";
    HalvesUnjudged: "writer: high and low aren't judged without prefix 1";
    WitnessUnjudgedWithoutFlag: "writer: records' witness numbers aren't judged with flag 0";
    ItemsUnjudgedWithoutFlag: "writer: item records aren't judged with flag 0";
    FirstIndexUnjudged: "writer: the first index isn't judged";
    FirstIndexUnjudgedWithoutItems: "writer: the first index isn't judged if the record has no items";
    SumWrapsAt32: "writer: the sum of the items wraps at 2^32";
    IssuanceHeadOnly: "writer: only an issuance's first 64 bytes have to lie in the source";
    EmptyBodyPositionUnread: "writer: an empty body's position isn't read";
    NullPositionsRead: "writer: positions of null fields are read";
    ExplicitPositionRead: "writer: an explicit value's position is read";
    SourceOnePast: "writer: a position plus length may pass the source by one";
    EndWrapsAt32: "writer: a position plus length wraps at 2^32";
    RecordsBehindRead: "writer: the record behind the count is read";
    HighVoutAccepted: "writer: vout at or above 2^30 is accepted";
    AllOnesWithFlagAccepted: "writer: vout 0xffffffff with a flag is accepted";
    LastVoutWithBothAccepted: "writer: vout 0x3fffffff with both flags is accepted";
    NullIssuanceWritten: "writer: a null issuance is accepted";
    WriterEmptinessOfInputsOnly: "writer: outputs' witnesses don't count for emptiness";
    WriterLimitOnePast: "writer: 4,000,001 bytes are accepted";
    OutputMayBeOneShort: "writer: an output one byte too short is accepted";
    // --- the writer: places, bytes, lengths
    RecordsFromOne: "writer: records are numbered from 1";
    SumPlacedAtItems: "writer: 13 for the sum is placed at the number of items";
    LengthAfterRefusal: "writer: a refusal has a length";
    WrittenBeforeJudged: "writer: a refused write has written";
    TailZeroed: "writer: the output behind the written bytes is set to 0";
    VoutBigEndian: "writer: vout is written big-endian";
    FlagsNotPutBack: "writer: the flags aren't put back into vout";
    KeysAlwaysAfter33: "writer: the keys start 33 after the amount";
    AmountFromSource: "writer: an issuance's explicit amounts come from the source";
    BodyAtPrefix: "writer: an asset, nonce or commitment starts at its prefix's position";
    AmountWrittenLittle: "writer: an explicit amount is written little-endian";
    PrefixFromSource: "writer: a prefix is taken from the source";
    CountBigEndian: "writer: a count's two further bytes are written big-endian";
    FeeByPosition: "fee: asks for the script's position";
}

impl Slip {
    pub fn numbered(number: usize) -> Option<Slip> {
        match number {
            0 => Some(Slip::None),
            _ => SLIPS.get(number - 1).map(|slip| slip.0),
        }
    }

    pub fn is(self, slip: Slip) -> bool {
        self == slip
    }

    /// The wrong thing if this is the slip, else the right one.
    pub fn pick<T>(self, slip: Slip, wrong: T, right: T) -> T {
        if self == slip {
            wrong
        } else {
            right
        }
    }

    // --- hooks of the reading

    pub fn limit(self) -> usize {
        match self {
            Slip::LimitOnePast => LIMIT + 1,
            Slip::LimitOneShort => LIMIT - 1,
            _ => LIMIT,
        }
    }

    pub fn waits_past_limit(self, part: Part, nothing_there: bool) -> bool {
        match self {
            Slip::LimitWaitsForByte => nothing_there,
            Slip::FurtherBytesUnlimited => part == Part::Further,
            _ => false,
        }
    }

    pub fn prefix_refused(self, field: Field, prefix: u8) -> bool {
        let value = matches!(field, Field::AmountPrefix | Field::KeysPrefix | Field::ValuePrefix);
        match self {
            Slip::Prefix9Refused => value && prefix == 9,
            Slip::Prefix11Refused => field == Field::AssetPrefix && prefix == 11,
            Slip::Prefix3Refused => field == Field::NoncePrefix && prefix == 3,
            _ => false,
        }
    }

    pub fn prefix_allowed(self, field: Field, prefix: u8) -> bool {
        match self {
            Slip::AssetPrefix2Allowed => field == Field::AssetPrefix && prefix == 2,
            Slip::ValuePrefix10Allowed => field == Field::ValuePrefix && prefix == 10,
            _ => false,
        }
    }

    pub fn amount(self, amount: u64) -> u64 {
        self.pick(Slip::AmountReadLittle, amount.swap_bytes(), amount)
    }

    pub fn length_used(self, position: usize, length: u64) -> u64 {
        match self {
            Slip::LengthWrapsAt32 => length as u32 as u64,
            Slip::EndWrapsAt64 if (position as u64).checked_add(length).is_none() => 0,
            _ => length,
        }
    }

    pub fn first_index(self, sum: u64, script_count: u64) -> u64 {
        if self == Slip::FirstIndexZeroWithoutItems && script_count == 0 {
            return 0;
        }
        sum
    }

    pub fn enters_at(self, table: usize, number: usize, at: usize) -> usize {
        match (self, table, number) {
            (Slip::FlagsEnterLate, INPUTS, 2) => at + 1,
            (Slip::TxidEntersEarly, INPUTS, 0) => at - 1,
            (Slip::IssuanceEntersEarly, INPUTS, 6) => at - 1,
            (Slip::HighEntersEarly, INPUTS, 8 | 11) | (Slip::HighEntersEarly, OUTPUTS, 4) => at - 4,
            (Slip::PrefixPositionLate, OUTPUTS, 1 | 3 | 7) => at + 1,
            (Slip::FirstIndexEarly, INPUTS, 17) => at - 1,
            (Slip::LengthEntersLate, INPUTS, 4 | 14 | 16) => at + 1,
            (Slip::LengthEntersLate, OUTPUTS, 9 | 11 | 13) | (Slip::LengthEntersLate, ITEMS, 1) => at + 1,
            _ => at,
        }
    }

    // --- hooks of the feeding

    pub fn zero_at_start(self, lent: &mut Lent) {
        match self {
            Slip::FreshLeavesTables => {
                let kept = lent.inputs.len().saturating_sub(INPUT);
                lent.inputs[..kept].fill(0);
                lent.outputs.fill(0);
                lent.items.fill(0);
            }
            Slip::FreshLeavesSurplus => {
                for table in 0..3 {
                    let numbers = lent.table(table);
                    let whole = numbers.len() / WIDTHS[table] * WIDTHS[table];
                    numbers[..whole].fill(0);
                }
            }
            _ => lent.zero(),
        }
    }

    pub fn zero_after_refusal(self, lent: &mut Lent) {
        if self != Slip::RefusedLeavesTables {
            lent.zero();
        }
    }

    pub fn more(self, taken: usize, reading: &Reading) -> Outcome {
        let mut outcome = Outcome::headless(MORE, 0, taken);
        if let (Slip::HeadShowsEarly, Ending::Finished(head)) = (self, reading.ending) {
            outcome.head[0] = head[0];
        }
        outcome.place = self.pick(Slip::MorePlaced, taken, 0);
        outcome
    }

    pub fn repeated(self, outcome: Outcome) -> Outcome {
        match self {
            Slip::HeadNotRepeated => Outcome { head: [0; 7], ..outcome },
            Slip::PlaceNotRepeated => Outcome { place: 0, ..outcome },
            _ => outcome,
        }
    }

    pub fn same_sizes(self, fresh: [usize; 3], now: [usize; 3]) -> bool {
        if self == Slip::SizesByRecords {
            return (0..3).all(|table| fresh[table] / WIDTHS[table] == now[table] / WIDTHS[table]);
        }
        fresh == now
    }

    // --- hooks of the writing

    pub fn records_read(self, count: usize) -> usize {
        self.pick(Slip::RecordsBehindRead, count + 1, count)
    }

    pub fn records_held(self, size: usize, width: usize) -> usize {
        self.pick(Slip::CountsAgainstAnyRecord, (size + width - 1) / width, size / width)
    }

    pub fn first_index_excused(self, items: u64) -> bool {
        match self {
            Slip::FirstIndexUnjudged => true,
            Slip::FirstIndexUnjudgedWithoutItems => items == 0,
            _ => false,
        }
    }

    pub fn sum_of_items(self, sum: u64, items: u64) -> u64 {
        let sum = sum + items;
        self.pick(Slip::SumWrapsAt32, sum as u32 as u64, sum)
    }

    pub fn end_of(self, position: u32, length: u64) -> u64 {
        let end = position as u64 + length;
        self.pick(Slip::EndWrapsAt32, end as u32 as u64, end)
    }
}
