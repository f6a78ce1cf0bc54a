//! Forged states: true ones with up to 24 numbers changed by the plan's edits, so any 20 numbers at all.
//!
//! A state is refused with 11 exactly if it fails docs/STATE.md's test, and then nothing is changed. One that passes acts
//! within the lengths lent, keeps demand 1, repeats its answer once ended, and never returns a state that is refused with 11.

use crate::plan::{Edit, Plan};
use crate::range::{self, in_range};
use crate::reached;
use crate::reading::demand_1;
use compare::archive::{Archive, State, STATE};
use compare::forms::Feeds;
use compare::paper::*;
use compare::tables::Tables;

pub fn check(plan: &Plan, bytes: &[u8]) {
    let (state, mut tables, rest) = case_of(plan, bytes);
    hand_in_with_other_sizes(plan, &state, &tables);
    talk(plan, state, rest, &mut tables);
}

/// The forged state, the tables as the true one left them, and the bytes that come next.
pub fn case_of<'a>(plan: &Plan, bytes: &'a [u8]) -> (State, Tables, &'a [u8]) {
    let mut tables = Tables::default();
    tables.prepare(plan.sizes);
    let state = Archive::fresh(&mut tables.lent());
    let (front, rest) = bytes.split_at((plan.first as usize).min(bytes.len()));
    let (state, _) = Archive::push(state, front, &mut tables.lent());
    assert!(in_range(&state), "a true state fails the range test");
    (forged(state, &plan.edits, plan.sizes), tables, rest)
}

/// The state with its numbers changed.
fn forged(mut state: State, edits: &[Edit], sizes: [usize; 3]) -> State {
    for edit in edits {
        let at = edit.index as usize % STATE;
        state[at] = edit.apply(state[at] as u64) as usize;
    }
    // The first edit's place says whether the sizes stay true ones: with others, 10 hides what a state does.
    if edits.first().map_or(true, |edit| edit.place() < 2) {
        for table in 0..3 {
            state[range::SIZES[table]] = sizes[table];
        }
    }
    state
}

/// Feeds the rest in the plan's pieces and finishes, from the forged state on.
fn talk(plan: &Plan, mut state: State, rest: &[u8], tables: &mut Tables) {
    let mut pieces: Vec<&[u8]> = Vec::new();
    let mut at = 0;
    for piece in plan.other_pieces(rest.len()) {
        pieces.push(&rest[at..at + piece]);
        at += piece;
    }
    let mut trusted = in_range(&state);
    let mut ended: Option<Outcome> = None;
    // None finishes; whether it comes first or last is the plan's whim.
    let calls = pieces.into_iter().map(Some);
    let calls: Vec<Option<&[u8]>> = if plan.whim & 1 == 0 {
        calls.chain([None, None]).collect()
    } else {
        [None].into_iter().chain(calls).collect()
    };
    for call in calls {
        let (returned, outcome) = one_call(&state, call, tables);
        reached::forged(&state, outcome.answer);
        if !trusted {
            assert_eq!(outcome, Outcome::headless(11, 0, 0), "a state out of range isn't refused with 11: {state:?}");
            return;
        }
        assert_ne!(outcome.answer, 11, "a state in range is refused with 11: {state:?}");
        if outcome.answer == 10 {
            assert_ne!(range::SIZES.map(|at| state[at]), plan.sizes, "10 though the sizes are those of the state");
            return;
        }
        assert_eq!(range::SIZES.map(|at| state[at]), plan.sizes, "no 10 though the sizes aren't those of the state");
        if call.is_none() {
            assert_ne!(outcome.answer, MORE, "more wanted after finishing");
        }
        if let Some(before) = ended {
            assert_eq!(outcome, before, "an ended reading doesn't repeat its answer");
        }
        if outcome.answer != MORE {
            ended = Some(Outcome { taken: 0, ..outcome });
        }
        state = returned;
        trusted = in_range(&state);
        assert!(trusted, "a returned state is out of range: {state:?}");
    }
}

/// One call, made twice from the same state and tables: it keeps demand 1 and says the same each time.
fn one_call(state: &State, piece: Option<&[u8]>, tables: &mut Tables) -> (State, Outcome) {
    let call = |tables: &mut Tables| match piece {
        Some(piece) => Archive::push(*state, piece, &mut tables.lent()),
        None => Archive::end(*state, &mut tables.lent()),
    };
    let mut before = Tables::default();
    before.copy(tables);
    let (returned, outcome) = call(tables);
    assert!(tables.guards_stand(), "a number outside the tables was touched");
    demand_1(&outcome, piece.map_or(0, <[u8]>::len), tables);
    assert_ne!(outcome.answer, 9, "only the strict form gives 9");
    if matches!(outcome.answer, 10 | 11) {
        assert_eq!(outcome.taken, 0, "10 or 11 takes bytes");
        assert!(returned == *state, "10 or 11 changes the state");
        assert!(tables.equal(&before), "10 or 11 touches the tables");
    }
    let (again, repeated) = call(&mut before);
    assert!(again == returned && repeated == outcome && before.equal(tables), "the same call says something else");
    (returned, outcome)
}

/// 11 is a matter of the state alone and comes before 10.
fn hand_in_with_other_sizes(plan: &Plan, state: &State, tables: &Tables) {
    let mut sizes = plan.sizes;
    let table = plan.whim as usize / 2 % 3;
    sizes[table] += 1 + plan.whim as usize / 8 % 20;
    let mut lent = Tables::default();
    lent.copy(tables);
    let (returned, outcome) = Archive::push(*state, &[], &mut lent.lent_of(sizes));
    if !in_range(state) {
        assert_eq!(outcome, Outcome::headless(11, 0, 0), "a state out of range, with other sizes");
    } else if range::SIZES.map(|at| state[at]) != sizes {
        assert_eq!(outcome, Outcome::headless(10, 0, 0), "a state in range, with other sizes");
    } else {
        return;
    }
    assert!(returned == *state && lent.equal(tables), "10 or 11 changes something");
}
