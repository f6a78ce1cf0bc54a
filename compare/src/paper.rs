//! Document 01's constants, and the shapes shared by every form of the reader and the writer.

/// No field may end past this many bytes.
pub const LIMIT: usize = 4_000_000;

/// Numbers in an input, an output and an item record.
pub const INPUT: usize = 20;
pub const OUTPUT: usize = 14;
pub const ITEM: usize = 2;
pub const WIDTHS: [usize; 3] = [INPUT, OUTPUT, ITEM];

/// The three tables, by number.
pub const INPUTS: usize = 0;
pub const OUTPUTS: usize = 1;
pub const ITEMS: usize = 2;

/// Finished is answer 0. "More wanted" has no number in the paper; the library shows it as 255.
pub const FINISHED: usize = 0;
pub const MORE: usize = 255;

/// Version, flag, three counts, locktime, length in bytes.
pub type Head = [u32; 7];

/// A txid, a blinding nonce, an entropy, or the 32-byte part of an asset, nonce or commitment.
pub const PART: usize = 32;

/// The least value that each announcing first byte may carry.
pub const LEAST_OF_2: u64 = 253;
pub const LEAST_OF_4: u64 = 65_536;
pub const LEAST_OF_8: u64 = 4_294_967_296;

pub const PEGIN: u32 = 1;
pub const ISSUANCE: u32 = 2;
/// The raw vout that carries no flags.
pub const ALL_ONES: u32 = 0xffff_ffff;
/// The first vout that doesn't fit below the two flag bits.
pub const VOUT_END: u32 = 1_073_741_824;

/// The three tables as the caller lends them.
pub struct Lent<'a> {
    pub inputs: &'a mut [u32],
    pub outputs: &'a mut [u32],
    pub items: &'a mut [u32],
}

impl Lent<'_> {
    /// Sizes in numbers, not in records.
    pub fn sizes(&self) -> [usize; 3] {
        [self.inputs.len(), self.outputs.len(), self.items.len()]
    }

    pub fn table(&mut self, table: usize) -> &mut [u32] {
        match table {
            INPUTS => self.inputs,
            OUTPUTS => self.outputs,
            _ => self.items,
        }
    }

    pub fn zero(&mut self) {
        self.inputs.fill(0);
        self.outputs.fill(0);
        self.items.fill(0);
    }
}

/// What one call of the reader says.
#[derive(Clone, Copy, PartialEq, Eq, Debug)]
pub struct Outcome {
    pub answer: usize,
    pub place: usize,
    /// Bytes taken by this call.
    pub taken: usize,
    pub head: Head,
}

impl Outcome {
    /// An outcome whose head numbers don't show.
    pub fn headless(answer: usize, place: usize, taken: usize) -> Outcome {
        Outcome { answer, place, taken, head: [0; 7] }
    }

    /// Refusals 1 to 9: those that leave every number of the tables 0.
    pub fn is_refused_reading(&self) -> bool {
        (1..=9).contains(&self.answer)
    }
}

/// What one call of the writer says.
#[derive(Clone, Copy, PartialEq, Eq, Debug)]
pub struct Written {
    pub answer: usize,
    pub place: usize,
    pub length: usize,
}

/// What the writer is handed, but for the output.
#[derive(Clone, Copy)]
pub struct Order<'a> {
    pub head: &'a Head,
    pub inputs: &'a [u32],
    pub outputs: &'a [u32],
    pub items: &'a [u32],
    pub source: &'a [u8],
}
