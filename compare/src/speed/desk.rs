//! What both sides of the measuring are given.

use crate::archive::{State, STATE};
use crate::paper::*;

/// The gate's tables: 64 inputs, 64 outputs, 256 items.
pub const SIZES: [usize; 3] = [64 * INPUT, 64 * OUTPUT, 256 * ITEM];

/// A piece as a network packet would bring it.
pub const PIECE: usize = 1_400;

/// What a call is lent, and where it leaves what it says.
pub struct Desk {
    pub inputs: Vec<u32>,
    pub outputs: Vec<u32>,
    pub items: Vec<u32>,
    pub output: Vec<u8>,
    /// Filled by the library.
    pub state: State,
    pub head: Head,
    pub answer: [usize; 3],
    /// Filled by the judge's forms.
    pub outcome: Outcome,
    pub written: Written,
}

impl Desk {
    /// Tables full of marks, and room for the longest transaction.
    pub fn new(longest: usize) -> Desk {
        const MARK: u32 = 0x5a5a_a5a5;
        let [inputs, outputs, items] = SIZES.map(|size| vec![MARK; size]);
        Desk {
            inputs,
            outputs,
            items,
            output: vec![0xa5; longest],
            state: [0; STATE],
            head: [MARK; 7],
            answer: [MARK as usize; 3],
            outcome: Outcome::headless(MARK as usize, 0, 0),
            written: Written { answer: MARK as usize, place: 0, length: 0 },
        }
    }

    pub fn lent(&mut self) -> Lent<'_> {
        Lent { inputs: &mut self.inputs, outputs: &mut self.outputs, items: &mut self.items }
    }
}
