//! The library's functions, each as an act: called as a C program would, without the marks and the fence of `archive`,
//! which cost more than some of these calls.

use super::desk::{Desk, PIECE};
use crate::archive::*;
use crate::paper::*;

// SAFETY of every call here: a pointer goes with the length of the slice it was taken from; state, head and answer have their
// 20, 7 and 3 numbers; they and the tables are parts of one desk, which doesn't overlap the load.

#[inline(never)]
pub fn fresh(_: &Order, desk: &mut Desk) {
    start(desk);
}

fn start(desk: &mut Desk) {
    let Desk { inputs, outputs, items, state, .. } = desk;
    unsafe {
        takzulit_new(
            state.as_mut_ptr(),
            inputs.as_mut_ptr(),
            inputs.len(),
            outputs.as_mut_ptr(),
            outputs.len(),
            items.as_mut_ptr(),
            items.len(),
        );
    }
}

#[inline(never)]
pub fn at_once(load: &Order, desk: &mut Desk) {
    let Desk { inputs, outputs, items, head, answer, .. } = desk;
    unsafe {
        takzulit_read_strict(
            load.source.as_ptr(),
            load.source.len(),
            inputs.as_mut_ptr(),
            inputs.len(),
            outputs.as_mut_ptr(),
            outputs.len(),
            items.as_mut_ptr(),
            items.len(),
            head.as_mut_ptr(),
            answer.as_mut_ptr(),
        );
    }
}

#[inline(never)]
pub fn one_piece(load: &Order, desk: &mut Desk) {
    fed(load, usize::MAX, desk);
}

#[inline(never)]
pub fn pieces(load: &Order, desk: &mut Desk) {
    fed(load, PIECE, desk);
}

fn fed(load: &Order, piece: usize, desk: &mut Desk) {
    start(desk);
    for piece in load.source.chunks(piece) {
        push(piece, desk);
    }
    end(desk);
}

fn push(piece: &[u8], desk: &mut Desk) {
    let Desk { inputs, outputs, items, state, head, answer, .. } = desk;
    unsafe {
        takzulit_push_bytes(
            state.as_mut_ptr(),
            piece.as_ptr(),
            piece.len(),
            inputs.as_mut_ptr(),
            inputs.len(),
            outputs.as_mut_ptr(),
            outputs.len(),
            items.as_mut_ptr(),
            items.len(),
            head.as_mut_ptr(),
            answer.as_mut_ptr(),
        );
    }
}

fn end(desk: &mut Desk) {
    let Desk { inputs, outputs, items, state, head, answer, .. } = desk;
    unsafe {
        takzulit_end(
            state.as_mut_ptr(),
            inputs.as_mut_ptr(),
            inputs.len(),
            outputs.as_mut_ptr(),
            outputs.len(),
            items.as_mut_ptr(),
            items.len(),
            head.as_mut_ptr(),
            answer.as_mut_ptr(),
        );
    }
}

#[inline(never)]
pub fn write(load: &Order, desk: &mut Desk) {
    let Desk { output, answer, .. } = desk;
    unsafe {
        takzulit_write(
            load.head.as_ptr(),
            load.inputs.as_ptr(),
            load.inputs.len(),
            load.outputs.as_ptr(),
            load.outputs.len(),
            load.items.as_ptr(),
            load.items.len(),
            load.source.as_ptr(),
            load.source.len(),
            output.as_mut_ptr(),
            output.len(),
            answer.as_mut_ptr(),
        );
    }
}

#[inline(never)]
pub fn length(load: &Order, desk: &mut Desk) {
    unsafe {
        takzulit_written_length(
            load.head.as_ptr(),
            load.inputs.as_ptr(),
            load.inputs.len(),
            load.outputs.as_ptr(),
            load.outputs.len(),
            load.items.as_ptr(),
            load.items.len(),
            load.source.as_ptr(),
            load.source.len(),
            desk.answer.as_mut_ptr(),
        );
    }
}
