//! Reading: agreement with the judge after every call, and the demands by themselves.

use crate::bearing::bearing;
use crate::plan::{Plan, SIZES};
use crate::reached;
use compare::archive::Archive;
use compare::forms::{Feeds, Reads, Resume, Whole, Writes};
use compare::generate::Random;
use compare::log::{Ending, Reading};
use compare::paper::*;
use compare::plain::{self, Feeding};
use compare::slips::Slip;
use compare::tables::Tables;

/// How a reading ended: what its last call said, the sum of bytes taken, and the tables.
pub struct Shown {
    pub outcome: Outcome,
    pub taken: usize,
    pub tables: Tables,
}

impl Shown {
    fn must_equal(&self, other: &Shown, what: &str) {
        assert_eq!(self.outcome, other.outcome, "{what}: other answers");
        assert_eq!(self.taken, other.taken, "{what}: other sums of bytes taken");
        assert!(self.tables.equal(&other.tables), "{what}: other tables");
    }
}

pub fn check(plan: &Plan, bytes: &[u8], slip: Slip) {
    let reading = plain::read(bytes, plan.sizes, slip);
    reached::ending(&reading);
    stages(plan, bytes);
    let pieces = plan.pieces(bytes.len());
    // The fast form gives feedback, for it is cut where the library is cut.
    feed::<Resume>(plan, bytes, &reading, &pieces, slip);
    let fed = feed::<Archive>(plan, bytes, &reading, &pieces, slip);
    let otherwise = feed::<Archive>(plan, bytes, &reading, &plan.other_pieces(bytes.len()), slip);
    fed.must_equal(&otherwise, "cut otherwise");
    at_once::<Whole>(plan, bytes, &reading, slip);
    fed.must_equal(&at_once::<Archive>(plan, bytes, &reading, slip), "read at once");
    if fed.outcome.answer == FINISHED {
        round_trip(&fed, bytes);
    }
}

/// Feeds the pieces once more, only to see where each leaves the library.
fn stages(plan: &Plan, bytes: &[u8]) {
    let mut tables = Tables::default();
    tables.prepare(plan.sizes);
    let mut state = Archive::fresh(&mut tables.lent());
    let mut at = 0;
    for piece in plan.pieces(bytes.len()) {
        let outcome;
        (state, outcome) = Archive::push(state, &bytes[at..at + piece], &mut tables.lent());
        reached::state(&state);
        if outcome.answer != MORE {
            break;
        }
        at += piece;
    }
}

/// Demand 3: other inputs that agree with the first at each of its bearing bytes, each cut in its own way.
pub fn check_twin(plan: &Plan, bytes: &[u8], slip: Slip) {
    let reading = plain::read(bytes, plan.sizes, slip);
    reached::ending(&reading);
    let map = bearing(bytes, plan.sizes, &reading);
    let first = feed::<Archive>(plan, bytes, &reading, &plan.pieces(bytes.len()), slip);
    // Another plan changes the bytes otherwise: the seed is a hash of all of it.
    let seed = plan.input().iter().fold(0, |hash: u64, &byte| (hash ^ byte as u64).wrapping_mul(0x0100_0000_01b3));
    let mut random = Random::seeded(seed);
    let mut twin = bytes.to_vec();
    // No feedback leads to the byte that would move something: so several twins, but where they are millions of bytes long.
    for _ in 0..if plan.sea { 1 } else { 8 } {
        change(&mut twin, &map, &mut random);
        let again = plain::read(&twin, plan.sizes, slip);
        assert_eq!(reading, again, "the judge reads the twin otherwise: the map or the judge is wrong");
        let fed = feed::<Archive>(plan, &twin, &again, &plan.other_pieces(twin.len()), slip);
        first.must_equal(&fed, "twin");
        first.must_equal(&at_once::<Archive>(plan, &twin, &again, slip), "twin at once");
    }
}

/// Changes bytes that aren't bearing; of a sea only the two ends, because going over millions is slow.
fn change(twin: &mut [u8], map: &[bool], random: &mut Random) {
    const ENDS: usize = 5000;
    let front = ENDS.min(twin.len());
    let back = twin.len().saturating_sub(ENDS).max(front);
    for at in (0..front).chain(back..twin.len()) {
        if !map[at] && !random.once_in(4) {
            twin[at] = random.draw() as u8;
        }
    }
}

/// Feeds the pieces, finishes, and calls on behind the end; the judge hears the same calls.
pub fn feed<F: Feeds>(plan: &Plan, bytes: &[u8], reading: &Reading, pieces: &[usize], slip: Slip) -> Shown {
    let (mut paper, mut found) = (Tables::default(), Tables::default());
    paper.prepare(plan.sizes);
    found.prepare(plan.sizes);
    let mut model = Feeding::fresh(reading, &mut paper.lent(), slip);
    let mut state = F::fresh(&mut found.lent());
    assert!(found.equal(&paper), "{}: fresh start: other tables", F::NAME);
    assert!(all_zero(&found), "{}: a fresh start leaves a number", F::NAME);

    let misused = plan.whim as usize % (pieces.len() + 3);
    let mut at = 0;
    let mut taken = 0;
    let mut repeats = 0;
    for (call, &piece) in pieces.iter().enumerate() {
        if repeats == 3 {
            // It has ended and said so often enough.
            break;
        }
        if call == misused {
            misuse::<F>(plan, state, &bytes[at..at + piece], &mut model, &mut paper, &mut found);
        }
        let said = model.push(piece, &mut paper.lent());
        let (returned, outcome) = F::push(state, &bytes[at..at + piece], &mut found.lent());
        compare::<F>("piece", said, outcome, &paper, &found);
        demand_1(&outcome, piece, &found);
        if piece == 0 && outcome.answer == MORE {
            assert!(returned == state, "{}: an empty piece changes the state", F::NAME);
        }
        repeats += (outcome.answer != MORE) as usize;
        state = returned;
        taken += outcome.taken;
        at += piece;
    }

    let said = model.end(&mut paper.lent());
    let (returned, ended) = F::end(state, &mut found.lent());
    state = returned;
    compare::<F>("finish", said, ended, &paper, &found);
    demand_1(&ended, 0, &found);
    assert_ne!(ended.answer, MORE, "{}: more wanted after finishing", F::NAME);

    // An ended reading takes no more and repeats its answer.
    if misused >= pieces.len() {
        misuse::<F>(plan, state, bytes, &mut model, &mut paper, &mut found);
    }
    // A refused one zeroes its tables again whatever the caller did to them; a finished one leaves them.
    scribble(&mut paper);
    scribble(&mut found);
    let behind = &bytes[..bytes.len().min(40)];
    let said = model.push(behind.len(), &mut paper.lent());
    let (returned, repeated) = F::push(state, behind, &mut found.lent());
    compare::<F>("piece behind the end", said, repeated, &paper, &found);
    demand_1(&repeated, behind.len(), &found);
    if repeated.answer == FINISHED {
        scribble(&mut paper);
        scribble(&mut found);
    }
    assert_eq!(repeated, ended, "{}: an ended reading doesn't repeat", F::NAME);
    assert!(returned == state, "{}: an ended reading's state changes", F::NAME);
    let (returned, repeated) = F::end(state, &mut found.lent());
    assert_eq!(repeated, ended, "{}: finishing again doesn't repeat", F::NAME);
    assert!(returned == state, "{}: an ended reading's state changes", F::NAME);
    assert!(found.equal(&paper), "{}: finishing again: other tables", F::NAME);

    if ended.answer == FINISHED {
        nothing_behind(&ended.head, &found);
    }
    Shown { outcome: ended, taken, tables: found }
}

/// Alters each table's last number; done twice, it is as before.
fn scribble(tables: &mut Tables) {
    let lent = tables.lent();
    for table in [lent.inputs, lent.outputs, lent.items] {
        if let Some(last) = table.last_mut() {
            *last ^= 0x5a;
        }
    }
}

/// A call with tables of another size: 10, and nothing is touched.
fn misuse<F: Feeds>(
    plan: &Plan,
    state: F::State,
    piece: &[u8],
    model: &mut Feeding,
    paper: &mut Tables,
    found: &mut Tables,
) {
    let table = plan.whim as usize / 8 % 3;
    let mut sizes = plan.sizes;
    // By one number or by a record, more or less; a size of 0 can only grow.
    let step = if plan.whim & 64 == 0 { 1 } else { WIDTHS[table] };
    sizes[table] = if plan.whim & 128 == 0 || sizes[table] < step { sizes[table] + step } else { sizes[table] - step };
    let said = model.push(piece.len(), &mut paper.lent_of(sizes));
    let (returned, outcome) = F::push(state, piece, &mut found.lent_of(sizes));
    compare::<F>("tables of another size", said, outcome, paper, found);
    assert_eq!(outcome, Outcome::headless(10, 0, 0), "{}: tables of another size", F::NAME);
    assert!(returned == state, "{}: 10 changes the state", F::NAME);
    let (returned, outcome) = F::end(state, &mut found.lent_of(sizes));
    assert_eq!(outcome, Outcome::headless(10, 0, 0), "{}: finishing with tables of another size", F::NAME);
    assert!(returned == state, "{}: 10 changes the state", F::NAME);
    assert!(found.equal(paper), "{}: 10 touches the tables", F::NAME);
}

/// The guards about the tables are compared with them.
fn compare<F: Feeds>(call: &str, said: Outcome, outcome: Outcome, paper: &Tables, found: &Tables) {
    assert_eq!(outcome, said, "{}: {call}: found, and what the judge says", F::NAME);
    assert!(found.equal(paper), "{}: {call}: other tables than the judge's", F::NAME);
}

/// A finished reading, a wish for more or a numbered refusal; after refusals 1 to 9 every number is 0.
pub fn demand_1(outcome: &Outcome, given: usize, tables: &Tables) {
    assert!(matches!(outcome.answer, 0..=11 | MORE), "no such answer: {}", outcome.answer);
    assert!(outcome.taken <= given, "more taken than given");
    if outcome.answer != FINISHED {
        assert_eq!(outcome.head, [0; 7], "head numbers without a finished reading");
    }
    if matches!(outcome.answer, FINISHED | MORE | 10 | 11) {
        assert_eq!(outcome.place, 0, "a place where there is none");
    }
    if outcome.answer == MORE {
        assert_eq!(outcome.taken, given, "more wanted, but the piece isn't taken entire");
    }
    if outcome.is_refused_reading() {
        assert!(all_zero(tables), "a refusal leaves a number in the tables");
    }
}

/// Compared with zeros as a whole: going over them one by one would be told to libFuzzer number by number, and is slow.
static ZEROS: [u32; SIZES] = [0; SIZES];

fn all_zero(tables: &Tables) -> bool {
    (0..3).all(|table| tables.table(table) == &ZEROS[..tables.table(table).len()])
}

/// Nothing of a former transaction stands behind the last record.
fn nothing_behind(head: &Head, tables: &Tables) {
    for (table, width) in WIDTHS.iter().enumerate() {
        let behind = &tables.table(table)[head[2 + table] as usize * width..];
        assert!(behind == &ZEROS[..behind.len()], "a number stands behind the last record");
    }
}

/// At once and strictly; gives what the form that isn't strict shows.
pub fn at_once<R: Reads>(plan: &Plan, bytes: &[u8], reading: &Reading, slip: Slip) -> Shown {
    let mut shown = Vec::new();
    for strict in [false, true] {
        let (mut paper, mut found) = (Tables::default(), Tables::default());
        paper.prepare(plan.sizes);
        found.prepare(plan.sizes);
        let said = plain::read_at_once(reading, bytes.len(), &mut paper.lent(), strict, slip);
        let outcome = R::read(bytes, &mut found.lent(), strict);
        assert_eq!(outcome, said, "{}: at once, strict {strict}: found, and what the judge says", R::NAME);
        assert!(found.equal(&paper), "{}: at once, strict {strict}: other tables than the judge's", R::NAME);
        demand_1(&outcome, bytes.len(), &found);
        assert!(!matches!(outcome.answer, MORE | 10 | 11), "{}: at once: {}", R::NAME, outcome.answer);
        shown.push(Shown { outcome, taken: outcome.taken, tables: found });
    }
    let (strictly, plainly) = (shown.pop().expect("two readings"), shown.pop().expect("two readings"));
    let follows = plainly.outcome.answer == FINISHED && plainly.taken < bytes.len();
    if follows {
        let nine = Outcome::headless(9, plainly.taken, plainly.taken);
        assert_eq!(strictly.outcome, nine, "{}: bytes follow", R::NAME);
    } else {
        strictly.must_equal(&plainly, "strictly");
    }
    // Of fed pieces the last call finishes and takes nothing.
    Shown { outcome: Outcome { taken: 0, ..plainly.outcome }, ..plainly }
}

const BLANK: u8 = 0xc3;
/// Bytes behind an output that nobody may touch.
pub const GUARD: usize = 16;

/// An output before a write.
pub fn blank(length: usize) -> Vec<u8> {
    vec![BLANK; length]
}

/// Whether a write has left these bytes alone. Compared as a whole, for the same reason.
pub fn untouched(output: &[u8]) -> bool {
    output == blank(output.len())
}

/// Demand 2: written back over the same bytes, a finished reading gives the same bytes, in exactly their room.
fn round_trip(shown: &Shown, bytes: &[u8]) {
    let head = &shown.outcome.head;
    let length = head[6] as usize;
    assert_eq!(length, shown.taken, "the length in bytes is not the bytes taken");
    let order = Order {
        head,
        inputs: shown.tables.table(INPUTS),
        outputs: shown.tables.table(OUTPUTS),
        items: shown.tables.table(ITEMS),
        source: bytes,
    };
    let whole = Written { answer: FINISHED, place: 0, length };
    assert_eq!(Archive::written_length(&order), whole, "length of what was read");
    let mut output = blank(length + GUARD);
    let short = Archive::write(&order, &mut output[..length - 1]);
    assert_eq!(short, Written { answer: 14, place: 0, length: 0 }, "one byte of room less");
    assert!(untouched(&output), "a refused write touches the output");
    for room in [length, length + GUARD / 2] {
        output.fill(BLANK);
        assert_eq!(Archive::write(&order, &mut output[..room]), whole, "written back");
        assert!(output[..length] == bytes[..length], "written back, other bytes come out");
        assert!(untouched(&output[length..]), "bytes behind the written ones change");
    }
    for record in shown.tables.table(OUTPUTS).chunks_exact(OUTPUT) {
        let record: &[u32; OUTPUT] = record.try_into().expect("a whole record");
        assert_eq!(Archive::is_fee(record), record[9] == 0, "the fee question");
    }
}

/// The ending's head, or as much of it as a reading that hasn't finished tells.
pub fn head_of(reading: &Reading, bytes: &[u8]) -> Head {
    if let Ending::Finished(head) = reading.ending {
        return head;
    }
    let mut head = [0; 7];
    head[1] = bytes.get(4).map_or(0, |&flag| (flag & 1) as u32);
    for entry in &reading.entries {
        let records = (entry.index / WIDTHS[entry.table] + 1) as u32;
        head[2 + entry.table] = head[2 + entry.table].max(records);
    }
    head
}
