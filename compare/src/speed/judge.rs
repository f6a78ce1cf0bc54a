//! The judge's fast forms, each as an act.

use super::desk::{Desk, PIECE};
use crate::paper::*;
use crate::resume::Reading;
use crate::{whole, writer};

#[inline(never)]
pub fn fresh(_: &Order, desk: &mut Desk) {
    desk.lent().zero();
}

#[inline(never)]
pub fn at_once(load: &Order, desk: &mut Desk) {
    read(load.source, desk);
}

pub fn read(bytes: &[u8], desk: &mut Desk) {
    desk.outcome = whole::read(bytes, &mut desk.lent(), true);
}

#[inline(never)]
pub fn one_piece(load: &Order, desk: &mut Desk) {
    fed(load.source, usize::MAX, desk);
}

#[inline(never)]
pub fn pieces(load: &Order, desk: &mut Desk) {
    fed(load.source, PIECE, desk);
}

fn fed(bytes: &[u8], piece: usize, desk: &mut Desk) {
    let mut reading = Reading::fresh(&mut desk.lent());
    for piece in bytes.chunks(piece) {
        (reading, desk.outcome) = reading.push_bytes(piece, &mut desk.lent());
    }
    (_, desk.outcome) = reading.end(&mut desk.lent());
}

#[inline(never)]
pub fn write(load: &Order, desk: &mut Desk) {
    desk.written = writer::write(load, &mut desk.output);
}

#[inline(never)]
pub fn length(load: &Order, desk: &mut Desk) {
    desk.written = writer::written_length(load);
}
