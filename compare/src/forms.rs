//! What can be judged: a reader that is fed, a reader of whole bytes, a writer; and the judge's own fast forms as such.
//! The library is another one (`archive`).

use crate::paper::*;
use crate::{resume, whole, writer};

/// A reader that is fed in pieces.
pub trait Feeds {
    const NAME: &'static str;
    type State: Copy + PartialEq;
    fn fresh(lent: &mut Lent) -> Self::State;
    fn push(state: Self::State, piece: &[u8], lent: &mut Lent) -> (Self::State, Outcome);
    fn end(state: Self::State, lent: &mut Lent) -> (Self::State, Outcome);
}

/// A reader of whole bytes.
pub trait Reads {
    const NAME: &'static str;
    fn read(bytes: &[u8], lent: &mut Lent, strict: bool) -> Outcome;
}

pub trait Writes {
    const NAME: &'static str;
    fn written_length(order: &Order) -> Written;
    fn write(order: &Order, output: &mut [u8]) -> Written;
    fn is_fee(output: &[u32; OUTPUT]) -> bool;
}

pub struct Whole;

impl Reads for Whole {
    const NAME: &'static str = "whole";
    fn read(bytes: &[u8], lent: &mut Lent, strict: bool) -> Outcome {
        whole::read(bytes, lent, strict)
    }
}

pub struct Resume;

impl Feeds for Resume {
    const NAME: &'static str = "resume";
    type State = resume::Reading;
    fn fresh(lent: &mut Lent) -> resume::Reading {
        resume::Reading::fresh(lent)
    }
    fn push(state: resume::Reading, piece: &[u8], lent: &mut Lent) -> (resume::Reading, Outcome) {
        state.push_bytes(piece, lent)
    }
    fn end(state: resume::Reading, lent: &mut Lent) -> (resume::Reading, Outcome) {
        state.end(lent)
    }
}

pub struct Quick;

impl Writes for Quick {
    const NAME: &'static str = "writer";
    fn written_length(order: &Order) -> Written {
        writer::written_length(order)
    }
    fn write(order: &Order, output: &mut [u8]) -> Written {
        writer::write(order, output)
    }
    fn is_fee(output: &[u32; OUTPUT]) -> bool {
        writer::is_fee(output)
    }
}

/// Whether the library is compiled in.
pub const ARCHIVE: bool = cfg!(feature = "archive");

/// Which forms stand on the other side of the plain one.
#[derive(Clone, Copy, PartialEq, Eq, Debug)]
pub enum Against {
    /// The judge's own fast forms alone.
    Own,
    /// The library alone.
    Archive,
    All,
}

impl Against {
    /// Every form that is compiled in.
    pub fn compiled() -> Against {
        if ARCHIVE {
            Against::All
        } else {
            Against::Own
        }
    }

    pub fn own(self) -> bool {
        self != Against::Archive
    }

    pub fn archive(self) -> bool {
        self != Against::Own
    }

    pub fn names(self) -> String {
        let own = [Whole::NAME, Resume::NAME, Quick::NAME];
        let names: Vec<&str> =
            own.into_iter().filter(|_| self.own()).chain(self.archive().then_some("archive")).collect();
        names.join(", ")
    }
}
