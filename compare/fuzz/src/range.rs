//! The range test of docs/STATE.md, said again from its tables: which states are refused with 11.
//!
//! It is instrumented like the judge, so it is what leads the fuzzer to states that pass the test and are yet forged.

use compare::archive::State;
use compare::paper::*;

/// The numbers' places in the state: the order of docs/STATE.md's first table, but for the locktime.
pub const STAGE: usize = 0;
pub const FORM: usize = 1;
pub const WIDTH: usize = 2;
pub const HAVE: usize = 3;
pub const VALUE: usize = 4;
pub const TAKEN: usize = 5;
pub const SIZES: [usize; 3] = [6, 7, 8];
pub const VERSION: usize = 9;
pub const FLAG: usize = 10;
pub const COUNTS: [usize; 3] = [11, 12, 13];
pub const LOCKTIME: usize = 14;
pub const INDEX: usize = 15;
pub const LEFT: usize = 16;
pub const ISSUANCE_FLAG: usize = 17;
pub const NULL: usize = 18;
pub const EMPTY: usize = 19;

/// What each stage reads, numbered as in docs/STATE.md, and the first summand of the least number of bytes before its field.
const STAGES: [(u8, usize); 25] = [
    (0, 0),
    (1, 4),
    (3, 5),
    (2, 5),
    (0, 37),
    (4, 41),
    (0, 42),
    (2, 46),
    (2, 78),
    (5, 110),
    (5, 119),
    (3, 5),
    (6, 5),
    (5, 6),
    (6, 7),
    (4, 8),
    (0, 5),
    (4, 9),
    (4, 10),
    (3, 11),
    (4, 11),
    (3, 12),
    (4, 12),
    (4, 9),
    (4, 10),
];
const FINISHED_STAGE: usize = 25;
const REFUSED_STAGE: usize = 26;
const U32_MAX: usize = u32::MAX as usize;

/// For each refusal, from 1: how far its place lies before the bytes taken, and the places it can have.
const REFUSALS: [(std::ops::RangeInclusive<usize>, std::ops::RangeInclusive<usize>); 8] = [
    (0..=0, 0..=LIMIT - 1),
    (0..=9, 10..=LIMIT),
    (3..=9, 5..=LIMIT),
    (1..=9, 5..=LIMIT),
    (1..=1, 7..=LIMIT),
    (66..=66, 47..=LIMIT),
    (7..=LIMIT, 4..=4),
    (7..=LIMIT, 4..=4),
];

pub fn in_range(state: &State) -> bool {
    match state[STAGE] {
        0..=24 => numbers(state) && field(state) && place(state),
        FINISHED_STAGE => finished(state),
        REFUSED_STAGE => refused(state),
        _ => false,
    }
}

/// The bytes that a count or length takes.
fn bytes_of(n: usize) -> u128 {
    match n {
        0..=252 => 1,
        253..=65_535 => 3,
        65_536..=U32_MAX => 5,
        _ => 9,
    }
}

fn rooms(state: &State) -> [usize; 3] {
    [state[SIZES[INPUTS]] / INPUT, state[SIZES[OUTPUTS]] / OUTPUT, (state[SIZES[ITEMS]] / ITEM).min(U32_MAX)]
}

/// The numbers that outlast a field, stage by stage.
fn numbers(state: &State) -> bool {
    let stage = state[STAGE];
    let [inputs, outputs, items] = COUNTS.map(|at| state[at]);
    let [input_room, output_room, item_room] = rooms(state);
    let (index, left, form) = (state[INDEX], state[LEFT], state[FORM]);
    let stacked = stage == 20 || stage == 22;
    let version = if stage == 0 { 0 } else { U32_MAX };
    let flag = match stage {
        0..=1 => 0..=0,
        2..=16 => 0..=255,
        _ => 1..=1,
    };
    let locktime = if stage <= 16 { 0 } else { U32_MAX };
    let index_fits = match stage {
        0..=2 => index == 0,
        3..=10 | 17..=22 => index < inputs,
        11 => index == inputs,
        16 => index == outputs,
        _ => index < outputs,
    };
    let issuance = match stage {
        7..=10 => 1..=1,
        5..=6 => 0..=1,
        _ => 0..=0,
    };
    let empty_most = usize::from(stage > 16 && !stacked && form != 2);
    let empty = state[EMPTY];
    let left_fits = if stacked { left >= 1 } else { left == 0 };
    // In the witnesses.
    let no_stack = matches!(stage, 17..=19) && index == 0 || matches!(stage, 23..=24) && inputs == 0;
    let unseen = form < 2 && (stage == 17 && index == 0 || stage == 23 && index == 0 && inputs == 0);
    state[VERSION] <= version
        && flag.contains(&state[FLAG])
        && inputs <= if stage <= 2 { 0 } else { input_room }
        && outputs <= if stage <= 11 { 0 } else { output_room }
        && items <= if stage <= 16 { 0 } else { item_room }
        && left_fits
        && left <= item_room - items
        && state[LOCKTIME] <= locktime
        && index_fits
        && issuance.contains(&state[ISSUANCE_FLAG])
        && state[NULL] <= usize::from(stage == 10)
        && empty <= empty_most
        && (items == 0 || empty == 0 && !no_stack)
        && (!unseen || empty == 1)
}

/// The field's own numbers, by kind and form.
fn field(state: &State) -> bool {
    let (form, width, have) = (state[FORM], state[WIDTH], state[HAVE]);
    let fits = match (STAGES[state[STAGE]].0, form) {
        (0, 3) => width == 4,
        (1, 3) => width == 1,
        (2, 2) => width == PART,
        (3 | 4, 0) => matches!(width, 2 | 4 | 8),
        (3 | 4, 1) => width == 1,
        (4, 2) => (1..=LIMIT).contains(&width),
        (5 | 6, 2) => width == PART,
        (5 | 6, 3) => width == 1,
        (5, 4) => width == 8,
        _ => false,
    };
    fits && have < width && state[VALUE] <= if form == 2 { 0 } else { (1 << (8 * have)) - 1 }
}

/// The bytes taken.
fn place(state: &State) -> bool {
    let (stage, form, width, taken) = (state[STAGE], state[FORM], state[WIDTH], state[TAKEN]);
    let (kind, first) = STAGES[stage];
    let [i, o, n] = COUNTS.map(|at| state[at] as u128);
    let index = state[INDEX] as u128;
    let own = match (kind, form) {
        (3 | 4, 0) | (5 | 6, 2) | (5, 4) => 1,
        (4, 2) => bytes_of(width),
        _ => 0,
    };
    let mut least = first as u128 + own;
    if stage >= 3 {
        least += bytes_of(state[COUNTS[INPUTS]]);
    }
    if stage >= 12 {
        least += bytes_of(state[COUNTS[OUTPUTS]]);
    }
    if stage == 20 || stage == 22 {
        least += bytes_of(state[LEFT]);
    }
    least += match stage {
        0..=2 => 0,
        3..=11 => 41 * index,
        12..=16 => 41 * i + 4 * index,
        17..=22 => 41 * i + 4 * o + 4 * index,
        _ => 45 * i + 4 * o + 2 * index,
    };
    if stage == 10 {
        least -= 8 * state[NULL] as u128;
    }
    if stage >= 17 {
        let shown_by_the_field = stage == 20 || stage == 22 || form == 2;
        let of_a_proof = n == 0 && state[EMPTY] == 0 && !shown_by_the_field;
        least += n + u128::from(of_a_proof);
    }
    let free = match stage {
        0..=2 => false,
        3..=5 | 11 => index >= 1,
        12..=16 => i + index >= 1,
        _ => true,
    };
    let slack = match stage {
        13 => 32,
        14 => 64,
        15 => 96,
        _ => 0,
    };
    if taken < state[HAVE] {
        return false;
    }
    let before = (taken - state[HAVE]) as u128;
    let most = if free { LIMIT as u128 } else { least + slack };
    least <= before && before <= most && before + width as u128 <= LIMIT as u128
}

fn finished(state: &State) -> bool {
    let [inputs, outputs, items] = COUNTS.map(|at| state[at]);
    let [input_room, output_room, item_room] = rooms(state);
    let (i, o, n, taken) = (inputs as u128, outputs as u128, items as u128, state[TAKEN] as u128);
    let mut least = 9 + bytes_of(inputs) + bytes_of(outputs) + 41 * i + 4 * o;
    if state[FLAG] == 1 {
        least += 4 * i + 2 * o + n.max(1);
    }
    let most = if i + o == 0 { least } else { LIMIT as u128 };
    let witnesses = if state[FLAG] == 1 { i + o >= 1 && (n == 0 || i >= 1) } else { n == 0 };
    state[FORM..=VALUE] == [0; 4]
        && state[VERSION] <= U32_MAX
        && state[FLAG] <= 1
        && inputs <= input_room
        && outputs <= output_room
        && items <= item_room
        && state[LOCKTIME] <= U32_MAX
        && state[INDEX..=EMPTY] == [0; 5]
        && witnesses
        && (least..=most.min(LIMIT as u128)).contains(&taken)
}

fn refused(state: &State) -> bool {
    let (number, place, taken) = (state[VALUE], state[HAVE], state[TAKEN]);
    (1..=8).contains(&number)
        && taken <= LIMIT
        && place <= taken
        && REFUSALS[number - 1].0.contains(&(taken - place))
        && REFUSALS[number - 1].1.contains(&place)
        && state[FORM..=WIDTH] == [0; 2]
        && state[VERSION..=EMPTY].iter().all(|&number| number == 0)
}
