//! Reading in pieces. A decoder keeps its tables from the fresh start to the end, so no reading can be finished with another's.

#![forbid(unsafe_code)]

use crate::raw::{self, Lent};
use crate::transaction::{Draft, Head};
use crate::{Refusal, Transaction, INPUT_WIDTH, ITEM_WIDTH, OUTPUT_WIDTH};

type State = [usize; raw::STATE];

/// What feeding a piece came to.
#[derive(Clone, Copy, Debug, PartialEq, Eq)]
pub enum DecoderStatus {
    /// The transaction is finished; `end` gives it. What follows it is left in the piece.
    Ready,
    /// The piece was taken entire, and more is wanted.
    NeedsMore,
}

/// Reads a transaction that comes in any pieces, into tables that are lent to it.
///
/// It holds the tables until it is gone. Between two pieces it is kept as it is: it can be moved, stored and sent to another thread. Where a
/// borrow is in the way, as in a struct that would own the tables too, take an [`OwnedDecoder`].
///
/// Wherever the bytes are cut, each answer, each table and each place is what document 01 says of all bytes fed so far.
#[derive(Debug)]
pub struct TransactionDecoder<'t> {
    state: State,
    lent: Lent<'t>,
}

impl<'t> TransactionDecoder<'t> {
    /// The fresh start: every number of the tables is set to 0. A table holds as many whole records as fit; a transaction that wants more is refused
    /// by 4. [`INPUT_WIDTH`], [`OUTPUT_WIDTH`] and [`ITEM_WIDTH`] say how many numbers a record has.
    pub fn new(inputs: &'t mut [u32], outputs: &'t mut [u32], items: &'t mut [u32]) -> Self {
        let mut lent = Lent { inputs, outputs, items };
        let state = fresh(&mut lent);
        TransactionDecoder { state, lent }
    }

    pub(crate) fn of_parts(state: State, lent: Lent<'t>) -> Self {
        TransactionDecoder { state, lent }
    }

    /// The reading state: 20 numbers, which `docs/STATE.md` explains. To be looked at, or kept for
    /// [`resume_unchecked`](Self::resume_unchecked) together with the tables.
    pub fn state(&self) -> [usize; raw::STATE] {
        self.state
    }

    /// Feeds a piece, and takes what was read off its front. While more is wanted the piece is taken entire. What follows a finished transaction
    /// stays in it: a caller who wants the strict form refuses a piece that is not empty then. An ended reading takes no more and repeats its
    /// answer.
    ///
    /// # Errors
    ///
    /// Refusals 2 to 8. All numbers of the tables are 0 then, the byte that settled it is taken too, and every later call repeats it. (10 and 11, which
    /// only [`resume_unchecked`](Self::resume_unchecked) can lead to, take and change nothing.)
    pub fn push_bytes(&mut self, bytes: &mut &[u8]) -> Result<DecoderStatus, Refusal> {
        push(&mut self.state, &mut self.lent, bytes)
    }

    /// Finishes: the transaction.
    ///
    /// # Errors
    ///
    /// Refusal 1 where more was wanted, at the bytes taken; an ended reading's own answer again. All numbers of the tables are 0 then.
    pub fn end(mut self) -> Result<Transaction<'t>, Refusal> {
        let head = finish(&mut self.state, &mut self.lent)?;
        Ok(Transaction::of(Draft { head, inputs: self.lent.inputs, outputs: self.lent.outputs, items: self.lent.items }))
    }
}

/// A decoder that owns its tables, for a reading that is kept between pieces in a struct of the caller's, and for reading one transaction after another
/// into the same tables.
///
/// A transaction is given once: [`end`](Self::end) closes its reading, and the next piece starts another, with every number of the tables 0. So a
/// loop that forgets to start anew can't be given the last lorry's transaction again.
///
/// ```
/// use takzulit::{DecoderStatus, OwnedDecoder};
///
/// let mut decoder = OwnedDecoder::new(64, 64, 256).expect("memory for 64 inputs, 64 outputs and 256 items");
/// // two transactions of 11 bytes, back to back, cut where the link pleases
/// let stream = [2, 0, 0, 0, 0, 0, 0, 0, 0, 0, 0, 3, 0, 0, 0, 0, 0, 0, 0, 0, 0, 0];
/// let mut versions = Vec::new();
/// for mut piece in stream.chunks(7) {
///     while !piece.is_empty() {
///         if decoder.push_bytes(&mut piece)? == DecoderStatus::Ready {
///             versions.push(decoder.end()?.head().version);
///         }
///     }
/// }
/// assert_eq!(versions, [2, 3]);
/// # Ok::<(), takzulit::Refusal>(())
/// ```
#[derive(Debug)]
pub struct OwnedDecoder {
    state: State,
    /// The reading was ended, and what comes next belongs to another.
    closed: bool,
    inputs: Vec<u32>,
    outputs: Vec<u32>,
    items: Vec<u32>,
}

impl OwnedDecoder {
    /// A fresh start, with tables for so many records each. None where there is no memory for them.
    pub fn new(inputs: usize, outputs: usize, items: usize) -> Option<Self> {
        let mut decoder = OwnedDecoder {
            state: [0; raw::STATE],
            closed: false,
            inputs: table(inputs, INPUT_WIDTH)?,
            outputs: table(outputs, OUTPUT_WIDTH)?,
            items: table(items, ITEM_WIDTH)?,
        };
        decoder.restart();
        Some(decoder)
    }

    /// A fresh start, whatever the reading came to: it is given up, and every number of the tables is set to 0.
    pub fn restart(&mut self) {
        self.state = fresh(&mut self.parts().1);
        self.closed = false;
    }

    /// Feeds a piece, as [`TransactionDecoder::push_bytes`] does; behind an [`end`](Self::end), to a fresh start. Until then a finished reading takes no
    /// more, and a refused one repeats its refusal.
    ///
    /// # Errors
    ///
    /// Refusals 2 to 8, as there.
    pub fn push_bytes(&mut self, bytes: &mut &[u8]) -> Result<DecoderStatus, Refusal> {
        let (state, mut lent) = self.opened();
        push(state, &mut lent, bytes)
    }

    /// Finishes, and closes the reading: the transaction, which borrows the decoder's tables.
    ///
    /// # Errors
    ///
    /// Refusal 1 where more was wanted, at the bytes taken (at 0 behind another `end`); an ended reading's own refusal again.
    pub fn end(&mut self) -> Result<Transaction<'_>, Refusal> {
        self.opened();
        self.closed = true;
        let (state, mut lent) = self.parts();
        let head = finish(state, &mut lent)?;
        Ok(Transaction::of(Draft { head, inputs: lent.inputs, outputs: lent.outputs, items: lent.items }))
    }

    /// The reading that goes on, or a fresh one behind one that is closed.
    fn opened(&mut self) -> (&mut State, Lent<'_>) {
        if self.closed {
            self.restart();
        }
        self.parts()
    }

    fn parts(&mut self) -> (&mut State, Lent<'_>) {
        (&mut self.state, Lent { inputs: &mut self.inputs, outputs: &mut self.outputs, items: &mut self.items })
    }
}

fn table(records: usize, width: usize) -> Option<Vec<u32>> {
    let numbers = records.checked_mul(width)?;
    let mut table = Vec::new();
    table.try_reserve_exact(numbers).ok()?;
    table.resize(numbers, 0);
    Some(table)
}

fn fresh(lent: &mut Lent) -> State {
    let mut state = [0; raw::STATE];
    raw::new(&mut state, lent);
    state
}

fn push(state: &mut State, lent: &mut Lent, bytes: &mut &[u8]) -> Result<DecoderStatus, Refusal> {
    let (mut head, mut answer) = ([0; raw::HEAD], [0; raw::ANSWER]);
    raw::push_bytes(state, bytes, lent, &mut head, &mut answer);
    // no call takes more than the piece has: that is proved
    *bytes = &bytes[answer[raw::TAKEN]..];
    match answer[raw::NUMBER] {
        raw::FINISHED => Ok(DecoderStatus::Ready),
        raw::MORE => Ok(DecoderStatus::NeedsMore),
        number => Err(Refusal::new(number, answer[raw::PLACE])),
    }
}

fn finish(state: &mut State, lent: &mut Lent) -> Result<Head, Refusal> {
    let (mut head, mut answer) = ([0; raw::HEAD], [0; raw::ANSWER]);
    raw::end(state, lent, &mut head, &mut answer);
    finished(head, answer)
}

/// The head of a finished reading. Any other number is a refusal.
pub(crate) fn finished(head: [u32; raw::HEAD], answer: [usize; raw::ANSWER]) -> Result<Head, Refusal> {
    match answer[raw::NUMBER] {
        raw::FINISHED => Ok(Head::of(head)),
        number => Err(Refusal::new(number, answer[raw::PLACE])),
    }
}
