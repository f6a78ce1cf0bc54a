//! What `include/takzulit.h` declares: its constants and functions, and a safe call of each. Everything unsafe is in this file. `.ci/exports` compares
//! it with the exported functions.
#![allow(unsafe_code)]

use crate::TransactionDecoder;

#[cfg(not(all(target_os = "linux", any(target_arch = "x86_64", target_arch = "aarch64"), target_pointer_width = "64")))]
compile_error!("libtakzulit.a is for 64-bit Linux: `bin/library` writes one for x86-64, `.ci/arm-archive` one for aarch64");

/// A transaction's greatest length in bytes.
pub const LIMIT: usize = 4_000_000;
/// The numbers of an input record.
pub const INPUT_WIDTH: usize = 20;
/// The numbers of an output record.
pub const OUTPUT_WIDTH: usize = 14;
/// The numbers of an item record.
pub const ITEM_WIDTH: usize = 2;
/// The numbers of a reading state.
pub const STATE: usize = 20;
/// The numbers of the head.
pub const HEAD: usize = 7;
/// The numbers of an answer, and where each stands.
pub const ANSWER: usize = 3;
pub const NUMBER: usize = 0;
pub const PLACE: usize = 1;
pub const TAKEN: usize = 2;
pub const LENGTH: usize = 2;
/// What an answer's number is where nothing is refused.
pub const FINISHED: usize = 0;
pub const MORE: usize = 255;

extern "C" {
    fn takzulit_new(
        state: &mut [usize; STATE],
        inputs: *mut u32,
        inputs_len: usize,
        outputs: *mut u32,
        outputs_len: usize,
        items: *mut u32,
        items_len: usize,
    );
    fn takzulit_push_bytes(
        state: &mut [usize; STATE],
        piece: *const u8,
        piece_len: usize,
        inputs: *mut u32,
        inputs_len: usize,
        outputs: *mut u32,
        outputs_len: usize,
        items: *mut u32,
        items_len: usize,
        head: &mut [u32; HEAD],
        answer: &mut [usize; ANSWER],
    );
    fn takzulit_end(
        state: &mut [usize; STATE],
        inputs: *mut u32,
        inputs_len: usize,
        outputs: *mut u32,
        outputs_len: usize,
        items: *mut u32,
        items_len: usize,
        head: &mut [u32; HEAD],
        answer: &mut [usize; ANSWER],
    );
    fn takzulit_read(
        bytes: *const u8,
        bytes_len: usize,
        inputs: *mut u32,
        inputs_len: usize,
        outputs: *mut u32,
        outputs_len: usize,
        items: *mut u32,
        items_len: usize,
        head: &mut [u32; HEAD],
        answer: &mut [usize; ANSWER],
    );
    fn takzulit_read_strict(
        bytes: *const u8,
        bytes_len: usize,
        inputs: *mut u32,
        inputs_len: usize,
        outputs: *mut u32,
        outputs_len: usize,
        items: *mut u32,
        items_len: usize,
        head: &mut [u32; HEAD],
        answer: &mut [usize; ANSWER],
    );
    fn takzulit_written_length(
        head: &[u32; HEAD],
        inputs: *const u32,
        inputs_len: usize,
        outputs: *const u32,
        outputs_len: usize,
        items: *const u32,
        items_len: usize,
        source: *const u8,
        source_len: usize,
        answer: &mut [usize; ANSWER],
    );
    fn takzulit_write(
        head: &[u32; HEAD],
        inputs: *const u32,
        inputs_len: usize,
        outputs: *const u32,
        outputs_len: usize,
        items: *const u32,
        items_len: usize,
        source: *const u8,
        source_len: usize,
        output: *mut u8,
        output_len: usize,
        answer: &mut [usize; ANSWER],
    );
    fn takzulit_is_fee(output: &[u32; OUTPUT_WIDTH]) -> bool;
}

/// Three lent tables.
#[derive(Debug)]
pub struct Lent<'a> {
    pub inputs: &'a mut [u32],
    pub outputs: &'a mut [u32],
    pub items: &'a mut [u32],
}

// SAFETY, of each call below: it lends what Rust's references already promise: aligned, not null, as long as they say; what is `&mut` overlaps
// nothing, and nobody writes what is `&`. Each pointer goes with the length of the slice it was taken from, the slice lives until the call
// returns, and no pointer is kept; arrays have the length that the header wants. What is lent for writing is initialised before.

pub fn new(state: &mut [usize; STATE], t: &mut Lent) {
    unsafe {
        takzulit_new(
            state,
            t.inputs.as_mut_ptr(),
            t.inputs.len(),
            t.outputs.as_mut_ptr(),
            t.outputs.len(),
            t.items.as_mut_ptr(),
            t.items.len(),
        )
    }
}

pub fn push_bytes(state: &mut [usize; STATE], piece: &[u8], t: &mut Lent, head: &mut [u32; HEAD], answer: &mut [usize; ANSWER]) {
    unsafe {
        takzulit_push_bytes(
            state,
            piece.as_ptr(),
            piece.len(),
            t.inputs.as_mut_ptr(),
            t.inputs.len(),
            t.outputs.as_mut_ptr(),
            t.outputs.len(),
            t.items.as_mut_ptr(),
            t.items.len(),
            head,
            answer,
        )
    }
}

pub fn end(state: &mut [usize; STATE], t: &mut Lent, head: &mut [u32; HEAD], answer: &mut [usize; ANSWER]) {
    unsafe {
        takzulit_end(
            state,
            t.inputs.as_mut_ptr(),
            t.inputs.len(),
            t.outputs.as_mut_ptr(),
            t.outputs.len(),
            t.items.as_mut_ptr(),
            t.items.len(),
            head,
            answer,
        )
    }
}

pub fn read(bytes: &[u8], strict: bool, t: &mut Lent, head: &mut [u32; HEAD], answer: &mut [usize; ANSWER]) {
    let read = if strict { takzulit_read_strict } else { takzulit_read };
    unsafe {
        read(
            bytes.as_ptr(),
            bytes.len(),
            t.inputs.as_mut_ptr(),
            t.inputs.len(),
            t.outputs.as_mut_ptr(),
            t.outputs.len(),
            t.items.as_mut_ptr(),
            t.items.len(),
            head,
            answer,
        )
    }
}

pub fn written_length(head: &[u32; HEAD], inputs: &[u32], outputs: &[u32], items: &[u32], source: &[u8], answer: &mut [usize; ANSWER]) {
    unsafe {
        takzulit_written_length(
            head,
            inputs.as_ptr(),
            inputs.len(),
            outputs.as_ptr(),
            outputs.len(),
            items.as_ptr(),
            items.len(),
            source.as_ptr(),
            source.len(),
            answer,
        )
    }
}

pub fn write(
    head: &[u32; HEAD],
    inputs: &[u32],
    outputs: &[u32],
    items: &[u32],
    source: &[u8],
    output: &mut [u8],
    answer: &mut [usize; ANSWER],
) {
    unsafe {
        takzulit_write(
            head,
            inputs.as_ptr(),
            inputs.len(),
            outputs.as_ptr(),
            outputs.len(),
            items.as_ptr(),
            items.len(),
            source.as_ptr(),
            source.len(),
            output.as_mut_ptr(),
            output.len(),
            answer,
        )
    }
}

pub fn is_fee(output: &[u32; OUTPUT_WIDTH]) -> bool {
    unsafe { takzulit_is_fee(output) }
}

impl<'t> TransactionDecoder<'t> {
    /// Goes on with a state that [`state`](Self::state) gave and that was kept as numbers, outside any decoder, with the tables as they were then.
    ///
    /// What can be checked is checked by the next call: a state out of its range is refused by 11, tables of other lengths by 10, and both take and
    /// change nothing. Whether the numbers in the tables are that reading's can't be checked: with another's of the same lengths it finishes, and
    /// the [`Transaction`](crate::Transaction) holds records of a lorry that has left. So it is left to the caller's word, and safe Rust can't give it.
    /// A decoder that is kept as it is, or an [`OwnedDecoder`](crate::OwnedDecoder), needs no such word.
    ///
    /// # Safety
    ///
    /// `state` is what [`state`](Self::state) last gave for a reading, no piece was fed to that reading since, and the three tables hold, number for
    /// number, what its own tables held then.
    ///
    /// No memory but what is lent is touched if that is false, and nothing panics. But the transaction is then none that was read, and code that
    /// trusts its positions without looking may read out of bounds.
    pub unsafe fn resume_unchecked(
        state: [usize; STATE],
        inputs: &'t mut [u32],
        outputs: &'t mut [u32],
        items: &'t mut [u32],
    ) -> TransactionDecoder<'t> {
        TransactionDecoder::of_parts(state, Lent { inputs, outputs, items })
    }
}
