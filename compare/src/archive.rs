//! The library under test, through its C interface. A slice is a pointer and then a length in elements.
//!
//! Every array that a call fills stands between marks, and starts out full of marks: so a number that wasn't set,
//! or one set behind the array's end, shows.

use crate::fence::fenced;
use crate::forms::{Feeds, Reads, Writes};
use crate::paper::*;

/// The opaque numbers of a reading's state.
pub const STATE: usize = 20;
pub type State = [usize; STATE];

extern "C" {
    pub(crate) fn takzulit_new(
        state: *mut usize,
        inputs: *mut u32,
        inputs_len: usize,
        outputs: *mut u32,
        outputs_len: usize,
        items: *mut u32,
        items_len: usize,
    );
    pub(crate) fn takzulit_push_bytes(
        state: *mut usize,
        piece: *const u8,
        piece_len: usize,
        inputs: *mut u32,
        inputs_len: usize,
        outputs: *mut u32,
        outputs_len: usize,
        items: *mut u32,
        items_len: usize,
        head: *mut u32,
        answer: *mut usize,
    );
    pub(crate) fn takzulit_end(
        state: *mut usize,
        inputs: *mut u32,
        inputs_len: usize,
        outputs: *mut u32,
        outputs_len: usize,
        items: *mut u32,
        items_len: usize,
        head: *mut u32,
        answer: *mut usize,
    );
    pub(crate) fn takzulit_read(
        bytes: *const u8,
        bytes_len: usize,
        inputs: *mut u32,
        inputs_len: usize,
        outputs: *mut u32,
        outputs_len: usize,
        items: *mut u32,
        items_len: usize,
        head: *mut u32,
        answer: *mut usize,
    );
    pub(crate) fn takzulit_read_strict(
        bytes: *const u8,
        bytes_len: usize,
        inputs: *mut u32,
        inputs_len: usize,
        outputs: *mut u32,
        outputs_len: usize,
        items: *mut u32,
        items_len: usize,
        head: *mut u32,
        answer: *mut usize,
    );
    pub(crate) fn takzulit_written_length(
        head: *const u32,
        inputs: *const u32,
        inputs_len: usize,
        outputs: *const u32,
        outputs_len: usize,
        items: *const u32,
        items_len: usize,
        source: *const u8,
        source_len: usize,
        answer: *mut usize,
    );
    pub(crate) fn takzulit_write(
        head: *const u32,
        inputs: *const u32,
        inputs_len: usize,
        outputs: *const u32,
        outputs_len: usize,
        items: *const u32,
        items_len: usize,
        source: *const u8,
        source_len: usize,
        output: *mut u8,
        output_len: usize,
        answer: *mut usize,
    );
    pub(crate) fn takzulit_is_fee(output: *const u32) -> bool;
}

const MARK: usize = 0x5a5a_a5a5;
/// An answer that no paper gives: the call wrote behind an array's end.
const OVERRUN: usize = usize::MAX;

/// Head and answer as a call fills them, with marks behind.
struct Filled {
    head: [u32; 7 + 2],
    answer: [usize; 3 + 2],
}

impl Filled {
    fn blank() -> Filled {
        Filled { head: [MARK as u32; 9], answer: [MARK; 5] }
    }

    fn outcome(&self) -> Outcome {
        let [answer, place, taken, behind @ ..] = self.answer;
        let [v, flag, inputs, outputs, items, locktime, length, behind_head @ ..] = self.head;
        let head = [v, flag, inputs, outputs, items, locktime, length];
        let stands = behind == [MARK; 2] && behind_head == [MARK as u32; 2];
        Outcome { answer: if stands { answer } else { OVERRUN }, place, taken, head }
    }

    fn written(&self) -> Written {
        let Outcome { answer, place, taken: length, .. } = self.outcome();
        Written { answer, place, length }
    }
}

/// A state handed in with marks behind it.
struct Handed([usize; STATE + 2]);

impl Handed {
    fn over(state: State) -> Handed {
        let mut handed = [MARK; STATE + 2];
        handed[..STATE].copy_from_slice(&state);
        Handed(handed)
    }

    fn back(&self) -> State {
        assert_eq!(self.0[STATE..], [MARK; 2], "the call wrote behind the state");
        self.0[..STATE].try_into().expect("a whole state")
    }
}

pub struct Archive;

impl Feeds for Archive {
    const NAME: &'static str = "archive";
    type State = State;

    fn fresh(lent: &mut Lent) -> State {
        let mut state = Handed::over([MARK; STATE]);
        // SAFETY: every pointer goes with the length of the slice it was taken from; the state has 20 numbers.
        unsafe {
            takzulit_new(
                state.0.as_mut_ptr(),
                lent.inputs.as_mut_ptr(),
                lent.inputs.len(),
                lent.outputs.as_mut_ptr(),
                lent.outputs.len(),
                lent.items.as_mut_ptr(),
                lent.items.len(),
            );
        }
        state.back()
    }

    fn push(state: State, piece: &[u8], lent: &mut Lent) -> (State, Outcome) {
        let mut state = Handed::over(state);
        let mut filled = Filled::blank();
        // SAFETY: as above; the head has 7 numbers and the answer 3.
        fenced(piece, |piece| unsafe {
            takzulit_push_bytes(
                state.0.as_mut_ptr(),
                piece.as_ptr(),
                piece.len(),
                lent.inputs.as_mut_ptr(),
                lent.inputs.len(),
                lent.outputs.as_mut_ptr(),
                lent.outputs.len(),
                lent.items.as_mut_ptr(),
                lent.items.len(),
                filled.head.as_mut_ptr(),
                filled.answer.as_mut_ptr(),
            );
        });
        (state.back(), filled.outcome())
    }

    fn end(state: State, lent: &mut Lent) -> (State, Outcome) {
        let mut state = Handed::over(state);
        let mut filled = Filled::blank();
        // SAFETY: as above.
        unsafe {
            takzulit_end(
                state.0.as_mut_ptr(),
                lent.inputs.as_mut_ptr(),
                lent.inputs.len(),
                lent.outputs.as_mut_ptr(),
                lent.outputs.len(),
                lent.items.as_mut_ptr(),
                lent.items.len(),
                filled.head.as_mut_ptr(),
                filled.answer.as_mut_ptr(),
            );
        }
        (state.back(), filled.outcome())
    }
}

impl Reads for Archive {
    const NAME: &'static str = "archive";

    fn read(bytes: &[u8], lent: &mut Lent, strict: bool) -> Outcome {
        let mut filled = Filled::blank();
        let call = if strict { takzulit_read_strict } else { takzulit_read };
        // SAFETY: as above.
        fenced(bytes, |bytes| unsafe {
            call(
                bytes.as_ptr(),
                bytes.len(),
                lent.inputs.as_mut_ptr(),
                lent.inputs.len(),
                lent.outputs.as_mut_ptr(),
                lent.outputs.len(),
                lent.items.as_mut_ptr(),
                lent.items.len(),
                filled.head.as_mut_ptr(),
                filled.answer.as_mut_ptr(),
            );
        });
        filled.outcome()
    }
}

impl Writes for Archive {
    const NAME: &'static str = "archive";

    fn written_length(order: &Order) -> Written {
        let mut filled = Filled::blank();
        // SAFETY: as above; nothing but the answer is filled.
        fenced(order.source, |source| unsafe {
            takzulit_written_length(
                order.head.as_ptr(),
                order.inputs.as_ptr(),
                order.inputs.len(),
                order.outputs.as_ptr(),
                order.outputs.len(),
                order.items.as_ptr(),
                order.items.len(),
                source.as_ptr(),
                source.len(),
                filled.answer.as_mut_ptr(),
            );
        });
        filled.written()
    }

    fn write(order: &Order, output: &mut [u8]) -> Written {
        let mut filled = Filled::blank();
        // SAFETY: as above.
        fenced(order.source, |source| unsafe {
            takzulit_write(
                order.head.as_ptr(),
                order.inputs.as_ptr(),
                order.inputs.len(),
                order.outputs.as_ptr(),
                order.outputs.len(),
                order.items.as_ptr(),
                order.items.len(),
                source.as_ptr(),
                source.len(),
                output.as_mut_ptr(),
                output.len(),
                filled.answer.as_mut_ptr(),
            );
        });
        filled.written()
    }

    fn is_fee(output: &[u32; OUTPUT]) -> bool {
        // SAFETY: the record has its 14 numbers.
        unsafe { takzulit_is_fee(output.as_ptr()) }
    }
}
