//! A transaction that was read, and what is to be written.

#![forbid(unsafe_code)]

use crate::columns::head;
use crate::decoder::finished;
use crate::raw::{self, Lent};
use crate::{Input, Item, Output, Refusal, INPUT_WIDTH, ITEM_WIDTH, OUTPUT_WIDTH};

/// The numbers that stand beside the tables.
#[derive(Clone, Copy, Debug, Default, PartialEq, Eq, Hash)]
pub struct Head {
    /// The version.
    pub version: u32,
    /// The witness flag, 0 or 1.
    pub flag: u32,
    /// How many inputs.
    pub inputs: u32,
    /// How many outputs.
    pub outputs: u32,
    /// How many stack items, of all inputs.
    pub items: u32,
    /// The locktime.
    pub locktime: u32,
    /// The length in bytes. Writing does not look at it.
    pub bytes: u32,
}

impl Head {
    pub(crate) fn of(numbers: [u32; raw::HEAD]) -> Head {
        Head {
            version: numbers[head::VERSION],
            flag: numbers[head::FLAG],
            inputs: numbers[head::INPUTS],
            outputs: numbers[head::OUTPUTS],
            items: numbers[head::ITEMS],
            locktime: numbers[head::LOCKTIME],
            bytes: numbers[head::BYTES],
        }
    }

    fn numbers(&self) -> [u32; raw::HEAD] {
        let mut numbers = [0; raw::HEAD];
        numbers[head::VERSION] = self.version;
        numbers[head::FLAG] = self.flag;
        numbers[head::INPUTS] = self.inputs;
        numbers[head::OUTPUTS] = self.outputs;
        numbers[head::ITEMS] = self.items;
        numbers[head::LOCKTIME] = self.locktime;
        numbers[head::BYTES] = self.bytes;
        numbers
    }
}

/// A transaction that was read: its head numbers, and the tables that its reading filled. Safe Rust has no other way to one than a finished reading,
/// and nobody can change the tables while it lives. Its numbers are those of the bytes that were read, and its bodies stay where the bytes are:
/// positions count from its first byte.
#[derive(Clone, Copy, Debug)]
pub struct Transaction<'t> {
    draft: Draft<'t>,
}

impl<'t> Transaction<'t> {
    pub(crate) fn of(draft: Draft<'t>) -> Self {
        Transaction { draft }
    }

    /// Reads at once: fresh start, one piece, finish. Bytes behind the transaction are not looked at: [`Head::bytes`] says how long it is.
    /// [`read_strict`](Self::read_strict) refuses them.
    ///
    /// # Errors
    ///
    /// Refusals 1 to 8. All numbers of the tables are 0 then.
    pub fn read(bytes: &[u8], inputs: &'t mut [u32], outputs: &'t mut [u32], items: &'t mut [u32]) -> Result<Self, Refusal> {
        Self::read_at_once(bytes, false, Lent { inputs, outputs, items })
    }

    /// The same, and all of the bytes are the transaction.
    ///
    /// # Errors
    ///
    /// Refusals 1 to 8, and 9 where bytes follow. All numbers of the tables are 0 then.
    pub fn read_strict(bytes: &[u8], inputs: &'t mut [u32], outputs: &'t mut [u32], items: &'t mut [u32]) -> Result<Self, Refusal> {
        Self::read_at_once(bytes, true, Lent { inputs, outputs, items })
    }

    fn read_at_once(bytes: &[u8], strict: bool, mut lent: Lent<'t>) -> Result<Self, Refusal> {
        let (mut head, mut answer) = ([0; raw::HEAD], [0; raw::ANSWER]);
        raw::read(bytes, strict, &mut lent, &mut head, &mut answer);
        let head = finished(head, answer)?;
        Ok(Transaction::of(Draft { head, inputs: lent.inputs, outputs: lent.outputs, items: lent.items }))
    }

    /// The head numbers.
    pub fn head(&self) -> Head {
        self.draft.head
    }

    /// Head and tables as numbers: to be looked at by [`columns`](crate::columns), or to be changed and written.
    pub fn draft(&self) -> Draft<'t> {
        self.draft
    }

    /// The inputs, in order.
    pub fn inputs(&self) -> impl Iterator<Item = Input> + 't {
        records(self.draft.inputs, self.draft.head.inputs).map(|record: &[u32; INPUT_WIDTH]| Input::of(record))
    }

    /// The outputs, in order.
    pub fn outputs(&self) -> impl Iterator<Item = Output> + 't {
        records(self.draft.outputs, self.draft.head.outputs).map(|record: &[u32; OUTPUT_WIDTH]| Output::of(record))
    }

    /// All stack items, in the order of the bytes. An input's [`script_items`](Input::script_items) and [`pegin_items`](Input::pegin_items) say which are
    /// its own.
    pub fn items(&self) -> impl Iterator<Item = Item> + 't {
        records(self.draft.items, self.draft.head.items).map(|record: &[u32; ITEM_WIDTH]| Item::of(record))
    }

    /// The length that [`write`](Self::write) would write.
    ///
    /// # Errors
    ///
    /// As [`Draft::written_length`]. With the bytes that were read as the source there are none.
    pub fn written_length(&self, source: &[u8]) -> Result<usize, Refusal> {
        self.draft.written_length(source)
    }

    /// Writes it again, bodies from the source. With the bytes that were read as the source, these are written.
    ///
    /// # Errors
    ///
    /// As [`Draft::write`]. With the bytes that were read as the source: 14 alone, where the output is too short.
    pub fn write(&self, source: &[u8], output: &mut [u8]) -> Result<usize, Refusal> {
        self.draft.write(source, output)
    }
}

/// The first records of a table: so many, or as many as fit whole.
fn records<const WIDTH: usize>(table: &[u32], count: u32) -> impl Iterator<Item = &[u32; WIDTH]> + '_ {
    table.chunks_exact(WIDTH).take(count as usize).map(|record| record.try_into().expect("chunks of that width"))
}

/// What is to be written: head numbers and tables, wherever they come from. Writing judges all of it, so any numbers may stand here; that they were
/// read is said by a [`Transaction`] alone.
#[derive(Clone, Copy, Debug)]
pub struct Draft<'t> {
    /// The head numbers; its `bytes` are not looked at.
    pub head: Head,
    /// The input table. Records behind the head's count are not looked at.
    pub inputs: &'t [u32],
    /// The output table.
    pub outputs: &'t [u32],
    /// The item table.
    pub items: &'t [u32],
}

impl Draft<'_> {
    /// The length that [`write`](Self::write) would write.
    ///
    /// # Errors
    ///
    /// The refusals of [`write`](Self::write), but 14.
    pub fn written_length(&self, source: &[u8]) -> Result<usize, Refusal> {
        let mut answer = [0; raw::ANSWER];
        raw::written_length(&self.head.numbers(), self.inputs, self.outputs, self.items, source, &mut answer);
        written(answer)
    }

    /// Writes the transaction to the output's start, bodies from the source, and gives its length. Bytes behind it keep their values.
    ///
    /// # Errors
    ///
    /// Refusals 2, 6 to 8, 10 and 12 to 14; the output is as it was then.
    pub fn write(&self, source: &[u8], output: &mut [u8]) -> Result<usize, Refusal> {
        let mut answer = [0; raw::ANSWER];
        raw::write(&self.head.numbers(), self.inputs, self.outputs, self.items, source, output, &mut answer);
        written(answer)
    }
}

fn written(answer: [usize; raw::ANSWER]) -> Result<usize, Refusal> {
    match answer[raw::NUMBER] {
        raw::FINISHED => Ok(answer[raw::LENGTH]),
        number => Err(Refusal::new(number, answer[raw::PLACE])),
    }
}
