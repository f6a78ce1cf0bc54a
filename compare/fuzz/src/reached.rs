//! Feedback besides the compiler's: counters that libFuzzer reads by their section's name.
//!
//! They tell what no edge of the code tells: where a reading ended and why, why a write was refused, and in which stage the
//! library itself stands. For its state is handed back, and that much of the library can be seen from outside.

use crate::range;
use compare::archive::State;
use compare::log::{Ending, Reading, FIELDS, PARTS};
use compare::paper::*;
use compare::plain::CAUSES;
use std::sync::atomic::{AtomicU8, Ordering};

/// Answers of a reading: finished, refusals 1 to 11, more.
const ANSWERS: usize = 13;
const STAGES: usize = 28;
const FORMS: usize = 6;

const ENDINGS: usize = 0;
const WRITTEN: usize = ENDINGS + ANSWERS * FIELDS.len() * PARTS.len();
const STATES: usize = WRITTEN + CAUSES.len() + 1;
const FORGED: usize = STATES + 2 * STAGES * FORMS;
const COUNTERS: usize = FORGED + STAGES * FORMS * ANSWERS;

// A constant, so that the array can be made of copies of it.
#[allow(clippy::declare_interior_mutable_const)]
const UNREACHED: AtomicU8 = AtomicU8::new(0);

#[used]
#[link_section = "__libfuzzer_extra_counters"]
static REACHED: [AtomicU8; COUNTERS] = [UNREACHED; COUNTERS];

fn reached(counter: usize) {
    REACHED[counter].store(1, Ordering::Relaxed);
}

/// How the judge's reading ended: by number, field and part.
pub fn ending(reading: &Reading) {
    let (answer, field, part) = match reading.ending {
        Ending::Finished(_) => (0, 0, 0),
        Ending::Refused(refusal) => (refusal.number, refusal.field as usize, refusal.part as usize),
        Ending::More(field, part) => (ANSWERS - 1, field as usize, part as usize),
    };
    reached(ENDINGS + (answer * FIELDS.len() + field) * PARTS.len() + part);
}

/// Why the judge refused an order, or that it didn't.
pub fn written(cause: Option<&str>) {
    let number = CAUSES.iter().position(|&listed| Some(listed) == cause).unwrap_or(CAUSES.len());
    reached(WRITTEN + number);
}

/// Where a piece left the library: its stage and form, and whether within a field.
pub fn state(state: &State) {
    let within = (state[range::HAVE] > 0) as usize;
    reached(STATES + within * STAGES * FORMS + stage_and_form(state));
}

/// What the library answered to a state that may be forged.
pub fn forged(state: &State, answer: usize) {
    let answer = if answer == MORE { ANSWERS - 1 } else { answer.min(ANSWERS - 2) };
    reached(FORGED + stage_and_form(state) * ANSWERS + answer);
}

fn stage_and_form(state: &State) -> usize {
    state[range::STAGE].min(STAGES - 1) * FORMS + state[range::FORM].min(FORMS - 1)
}
