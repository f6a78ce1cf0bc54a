//! Makes a case that showed a difference small: tries simpler cases and keeps those that still differ.

use crate::damage::{Case, Writing};
use crate::drive::{check_reading, check_writing, hex, Bench, Difference};
use crate::forms::Against;
use crate::log::Reading;
use crate::paper::*;
use crate::slips::Slip;

/// At most so many trials: a long case costs much for each.
const TRIALS: usize = 20_000;
const TRIALS_OF_LONG: usize = 400;

struct Shrinker<C, F> {
    best: C,
    difference: Difference,
    trials: usize,
    fails: F,
}

impl<C: Clone, F: FnMut(&C) -> Option<Difference>> Shrinker<C, F> {
    /// Keeps the changed case if it still differs.
    fn attempt(&mut self, change: impl FnOnce(&mut C)) -> bool {
        if self.trials == 0 {
            return false;
        }
        self.trials -= 1;
        let mut changed = self.best.clone();
        change(&mut changed);
        match (self.fails)(&changed) {
            Some(difference) => {
                self.best = changed;
                self.difference = difference;
                true
            }
            None => false,
        }
    }
}

pub fn shrink_reading(case: Case, difference: Difference, slip: Slip, against: Against) -> (Case, Difference) {
    let mut bench = Bench::new(against);
    let mut reading = Reading::empty();
    let trials = if case.bytes.len() > 100_000 { TRIALS_OF_LONG } else { TRIALS };
    let fails = move |case: &Case| check_reading(case, &mut reading, &mut bench, slip).err();
    let mut shrinker = Shrinker { best: case, difference, trials, fails };
    shrinker.attempt(|case| case.whims = 1);
    loop {
        let mut smaller = shrinker.attempt_if(|case| !case.pieces.is_empty(), |case| case.pieces.clear());
        smaller |= fewer_pieces(&mut shrinker);
        smaller |= fewer_bytes(&mut shrinker);
        smaller |= smaller_tables(&mut shrinker);
        smaller |= zero_bytes(&mut shrinker);
        if !smaller || shrinker.trials == 0 {
            return (shrinker.best, shrinker.difference);
        }
    }
}

impl<C: Clone, F: FnMut(&C) -> Option<Difference>> Shrinker<C, F> {
    fn attempt_if(&mut self, sensible: impl Fn(&C) -> bool, change: impl FnOnce(&mut C)) -> bool {
        sensible(&self.best) && self.attempt(change)
    }
}

type ReadingShrinker<F> = Shrinker<Case, F>;

fn fewer_pieces<F: FnMut(&Case) -> Option<Difference>>(shrinker: &mut ReadingShrinker<F>) -> bool {
    let mut smaller = false;
    let mut at = 0;
    while at < shrinker.best.pieces.len() {
        // Joining a piece to the next one, or the last one to the rest.
        let joined = shrinker.attempt(|case| {
            let piece = case.pieces.remove(at);
            if let Some(next) = case.pieces.get_mut(at) {
                *next += piece;
            }
        });
        smaller |= joined;
        at += !joined as usize;
    }
    smaller
}

fn fewer_bytes<F: FnMut(&Case) -> Option<Difference>>(shrinker: &mut ReadingShrinker<F>) -> bool {
    let mut smaller = false;
    let mut chunk = shrinker.best.bytes.len() / 2;
    while chunk > 0 {
        let mut end = shrinker.best.bytes.len();
        while end >= chunk && end > 0 && shrinker.trials > 0 {
            let removed = shrinker.attempt(|case| {
                case.bytes.drain(end - chunk..end);
                clip(case);
            });
            smaller |= removed;
            end = if removed { end.min(shrinker.best.bytes.len()) } else { end - chunk.min(end) };
            if !removed && end < chunk {
                break;
            }
        }
        chunk /= 2;
    }
    smaller
}

fn clip(case: &mut Case) {
    let mut left = case.bytes.len();
    for piece in &mut case.pieces {
        *piece = (*piece).min(left);
        left -= *piece;
    }
}

fn smaller_tables<F: FnMut(&Case) -> Option<Difference>>(shrinker: &mut ReadingShrinker<F>) -> bool {
    let mut smaller = false;
    for table in 0..3 {
        for by in [WIDTHS[table] * 8, WIDTHS[table], 1] {
            while shrinker.best.sizes[table] >= by && shrinker.attempt(|case| case.sizes[table] -= by) {
                smaller = true;
            }
        }
    }
    smaller
}

fn zero_bytes<F: FnMut(&Case) -> Option<Difference>>(shrinker: &mut ReadingShrinker<F>) -> bool {
    let mut smaller = false;
    let length = shrinker.best.bytes.len();
    // Large parts first; then single bytes, of a long case only those at its ends.
    let mut chunk = length / 2;
    while chunk > 64 {
        for start in (0..length).step_by(chunk) {
            let end = length.min(start + chunk);
            let full = |case: &Case| case.bytes[start..end].iter().any(|&byte| byte != 0);
            smaller |= shrinker.attempt_if(full, |case| case.bytes[start..end].fill(0));
        }
        chunk /= 4;
    }
    for at in (0..length).filter(|&at| at < 1000 || at + 1000 > length) {
        smaller |= shrinker.attempt_if(|case| case.bytes[at] != 0, |case| case.bytes[at] = 0);
    }
    smaller
}

pub fn shrink_writing(case: Writing, difference: Difference, slip: Slip, against: Against) -> (Writing, Difference) {
    let mut bench = Bench::new(against);
    let trials = if case.source.len() > 100_000 { TRIALS_OF_LONG } else { TRIALS };
    let fails = move |case: &Writing| check_writing(case, &mut bench, slip).err();
    let mut shrinker = Shrinker { best: case, difference, trials, fails };
    loop {
        let mut smaller = false;
        for number in 0..7 {
            smaller |= shrinker.attempt_if(|case| case.head[number] > 0, |case| case.head[number] -= 1);
            smaller |= shrinker.attempt_if(|case| case.head[number] > 1, |case| case.head[number] = 0);
        }
        for table in 0..3 {
            let width = WIDTHS[table];
            while shrinker.attempt_if(|case| case.tables[table].len() >= width, |case| cut_off(case, table, width)) {
                smaller = true;
            }
            for at in 0..shrinker.best.tables[table].len() {
                smaller |= shrinker.attempt_if(|case| case.tables[table][at] != 0, |case| case.tables[table][at] = 0);
            }
        }
        for by in [1000, 30, 1] {
            while shrinker.attempt_if(|case| case.source.len() >= by, |case| cut_source(case, by)) {
                smaller = true;
            }
        }
        for at in 0..shrinker.best.source.len().min(2000) {
            smaller |= shrinker.attempt_if(|case| case.source[at] != 0, |case| case.source[at] = 0);
        }
        smaller |= shrinker.attempt_if(|case| case.room > 0, |case| case.room = 0);
        if !smaller || shrinker.trials == 0 {
            return (shrinker.best, shrinker.difference);
        }
    }
}

fn cut_off(case: &mut Writing, table: usize, width: usize) {
    let length = case.tables[table].len();
    case.tables[table].truncate(length - width);
}

fn cut_source(case: &mut Writing, by: usize) {
    let length = case.source.len();
    case.source.truncate(length - by);
}

pub fn print_reading(case: &Case, difference: &Difference) {
    println!("DIFFERENCE ({}): {}: {}", difference.subject, difference.call, difference.what);
    println!("  bytes ({}): {}", case.bytes.len(), hex(&case.bytes));
    println!("  table sizes in numbers: {:?}", case.sizes);
    println!("  pieces: {:?} and the rest; whims {}", case.pieces, case.whims);
}

pub fn print_writing(case: &Writing, difference: &Difference) {
    println!("DIFFERENCE ({}): {}: {}", difference.subject, difference.call, difference.what);
    println!("  head: {:?}", case.head);
    for (table, name) in ["inputs", "outputs", "items"].iter().enumerate() {
        println!("  {name}: {:?}", case.tables[table]);
    }
    println!("  source ({}): {}", case.source.len(), hex(&case.source));
    println!("  room {}", case.room);
}
