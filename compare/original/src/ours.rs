//! Our side: the library, and in its place the judge's plain forms, in which a slip can be switched on.

use compare::archive::Archive;
use compare::forms::{Feeds, Reads, Writes};
use compare::log::Reading;
use compare::paper::*;
use compare::plain::{self, Feeding};
use compare::slips::Slip;

/// Three tables of these sizes in numbers.
#[derive(Default, PartialEq, Eq)]
pub struct Tables {
    pub inputs: Vec<u32>,
    pub outputs: Vec<u32>,
    pub items: Vec<u32>,
}

/// What a former transaction left in the tables.
const MARK: u32 = 0xa5a5_5a5a;

impl Tables {
    pub fn prepare(&mut self, sizes: [usize; 3]) {
        for (table, size) in [&mut self.inputs, &mut self.outputs, &mut self.items].into_iter().zip(sizes) {
            table.clear();
            table.resize(size, MARK);
        }
    }

    pub fn with_room(records: [usize; 3]) -> Tables {
        let mut tables = Tables::default();
        tables.prepare([0, 1, 2].map(|table| records[table] * WIDTHS[table]));
        tables
    }

    pub fn lent(&mut self) -> Lent<'_> {
        Lent { inputs: &mut self.inputs, outputs: &mut self.outputs, items: &mut self.items }
    }

    pub fn order<'a>(&'a self, head: &'a Head, source: &'a [u8]) -> Order<'a> {
        Order { head, inputs: &self.inputs, outputs: &self.outputs, items: &self.items, source }
    }
}

pub trait Ours {
    /// At once, not strict. What stands in the tables behind it is the reading's.
    fn read(&mut self, bytes: &[u8], tables: &mut Tables) -> Outcome;
    /// Fed these pieces and then the rest; each call's outcome, then the finish's.
    fn feed(&mut self, bytes: &[u8], pieces: &[usize], tables: &mut Tables) -> Vec<Outcome>;
    fn write(&mut self, order: &Order, output: &mut [u8]) -> Written;
    fn is_fee(&mut self, output: &[u32; OUTPUT]) -> bool;
}

pub struct Library;

impl Ours for Library {
    fn read(&mut self, bytes: &[u8], tables: &mut Tables) -> Outcome {
        Archive::read(bytes, &mut tables.lent(), false)
    }

    fn feed(&mut self, bytes: &[u8], pieces: &[usize], tables: &mut Tables) -> Vec<Outcome> {
        let mut state = Archive::fresh(&mut tables.lent());
        let mut outcomes = Vec::new();
        for piece in cut(bytes, pieces) {
            let (next, outcome) = Archive::push(state, piece, &mut tables.lent());
            state = next;
            outcomes.push(outcome);
        }
        outcomes.push(Archive::end(state, &mut tables.lent()).1);
        outcomes
    }

    fn write(&mut self, order: &Order, output: &mut [u8]) -> Written {
        Archive::write(order, output)
    }

    fn is_fee(&mut self, output: &[u32; OUTPUT]) -> bool {
        Archive::is_fee(output)
    }
}

impl Library {
    pub fn read_strictly(bytes: &[u8], tables: &mut Tables) -> Outcome {
        Archive::read(bytes, &mut tables.lent(), true)
    }

    /// Fed these bytes, finished, and then fed some more: what the finish says, and what the last call.
    pub fn after_the_end(bytes: &[u8], more: &[u8], tables: &mut Tables) -> [Outcome; 2] {
        let state = Archive::fresh(&mut tables.lent());
        let (state, _) = Archive::push(state, bytes, &mut tables.lent());
        let (state, finish) = Archive::end(state, &mut tables.lent());
        [finish, Archive::push(state, more, &mut tables.lent()).1]
    }
}

/// The judge's plain reader and writer with this slip.
pub struct Slipped(pub Slip);

impl Slipped {
    fn reading(&self, bytes: &[u8], tables: &mut Tables) -> Reading {
        plain::read(bytes, tables.lent().sizes(), self.0)
    }
}

impl Ours for Slipped {
    fn read(&mut self, bytes: &[u8], tables: &mut Tables) -> Outcome {
        let reading = self.reading(bytes, tables);
        plain::read_at_once(&reading, bytes.len(), &mut tables.lent(), false, self.0)
    }

    fn feed(&mut self, bytes: &[u8], pieces: &[usize], tables: &mut Tables) -> Vec<Outcome> {
        let reading = self.reading(bytes, tables);
        let mut feeding = Feeding::fresh(&reading, &mut tables.lent(), self.0);
        let mut outcomes: Vec<Outcome> =
            cut(bytes, pieces).map(|piece| feeding.push(piece.len(), &mut tables.lent())).collect();
        outcomes.push(feeding.end(&mut tables.lent()));
        outcomes
    }

    fn write(&mut self, order: &Order, output: &mut [u8]) -> Written {
        plain::write(order, output, self.0).0
    }

    fn is_fee(&mut self, output: &[u32; OUTPUT]) -> bool {
        plain::is_fee(output, self.0)
    }
}

/// The pieces, and the rest as the last one.
pub fn cut<'a>(bytes: &'a [u8], pieces: &'a [usize]) -> impl Iterator<Item = &'a [u8]> {
    let rest = bytes.len() - pieces.iter().sum::<usize>();
    let mut at = 0;
    pieces.iter().copied().chain(Some(rest)).map(move |piece| {
        at += piece;
        &bytes[at - piece..at]
    })
}
