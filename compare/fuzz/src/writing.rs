//! Writing: the tables of a reading, with numbers changed by the plan's edits, go to the writer.

use crate::plan::Plan;
use crate::reached;
use crate::reading::{blank, head_of, untouched, GUARD};
use compare::archive::Archive;
use compare::damage::Writing;
use compare::drive::{check_writing, Bench};
use compare::forms::{Against, Reads, Writes};
use compare::paper::*;
use compare::plain;
use compare::slips::Slip;
use compare::tables::Tables;

/// What an edit changes where it changes neither a table nor one of the seven head numbers.
const SOURCE: usize = 7;
const ROOM: usize = 8;

pub fn check(plan: &Plan, bytes: &[u8], slip: Slip) {
    let case = case_of(plan, bytes, slip);
    reached::written(plain::write(&case.order(), &mut blank(case.room), slip).1);
    // Agreement with the judge in answer, place, length and every byte of the output; the fee question.
    let mut bench = Bench::new(Against::All);
    if let Err(difference) = check_writing(&case, &mut bench, slip) {
        panic!("{}: {}: {}", difference.subject, difference.call, difference.what);
    }
    demands(&case);
}

/// The order that the plan describes. A reading that was refused or wants more gives what it had entered.
pub fn case_of(plan: &Plan, bytes: &[u8], slip: Slip) -> Writing {
    let reading = plain::read(bytes, plan.sizes, slip);
    let mut case = Writing { head: head_of(&reading, bytes), source: bytes.to_vec(), ..Writing::default() };
    for table in 0..3 {
        case.tables[table].resize(plan.sizes[table], 0);
    }
    for entry in &reading.entries {
        if let Some(number) = case.tables[entry.table].get_mut(entry.index) {
            *number = entry.value;
        }
    }
    let mut room = None;
    for edit in &plan.edits {
        let index = edit.index as usize;
        if edit.place() == 3 {
            match index % 9 {
                SOURCE => case.source.truncate(edit.value as usize % (bytes.len() + 1)),
                ROOM => room = Some(edit.value as usize),
                number => case.head[number] = edit.apply(case.head[number] as u64) as u32,
            }
            continue;
        }
        let table = &mut case.tables[edit.place()];
        if !table.is_empty() {
            let at = index % table.len();
            table[at] = edit.apply(table[at] as u64) as u32;
        }
    }
    // The room is exact unless an edit says otherwise.
    let length = plain::written_length(&case.order(), slip).length;
    case.room = room.map_or(length, |room| room % (length + GUARD));
    case
}

/// The demands on the writer by themselves.
fn demands(case: &Writing) {
    let order = case.order();
    let asked = Archive::written_length(&order);
    assert_ne!(asked.answer, 14, "the length alone is refused for room");
    let mut output = blank(asked.length + GUARD);
    if asked.answer != FINISHED {
        assert_eq!(asked.length, 0, "a refusal has a length");
        assert_eq!(Archive::write(&order, &mut output), asked, "write, and the length alone");
        assert!(untouched(&output), "a refused write touches the output");
        return;
    }
    assert!((11..=LIMIT).contains(&asked.length), "no transaction has this length");
    assert_eq!(asked.place, 0, "a place where there is none");
    let short = Archive::write(&order, &mut output[..asked.length - 1]);
    assert_eq!(short, Written { answer: 14, place: 0, length: 0 }, "one byte of room less");
    assert!(untouched(&output), "a refused write touches the output");
    assert_eq!(Archive::write(&order, &mut output[..asked.length]), asked, "write, and the length alone");
    assert!(untouched(&output[asked.length..]), "bytes behind the room change");
    output.truncate(asked.length);
    read_back(case, &output);
}

/// The numbers that are positions.
const POSITIONS: [&[usize]; 3] = [&[0, 3, 6, 13, 15], &[1, 3, 7, 8, 10, 12], &[0]];

/// What the writer accepts reads back as the same transaction in all but positions, and writes the same bytes again.
fn read_back(case: &Writing, written: &[u8]) {
    let mut tables = Tables::default();
    tables.prepare([0, 1, 2].map(|table| case.head[2 + table] as usize * WIDTHS[table]));
    let outcome = Archive::read(written, &mut tables.lent(), true);
    assert_eq!(outcome.answer, FINISHED, "what was written is refused");
    assert_eq!(outcome.head[..6], case.head[..6], "the head written, and the head read back");
    assert_eq!(outcome.head[6] as usize, written.len(), "the length read back");
    for (table, positions) in POSITIONS.iter().enumerate() {
        for (index, (before, after)) in case.tables[table].iter().zip(tables.table(table)).enumerate() {
            let number = index % WIDTHS[table];
            assert!(
                before == after || positions.contains(&number),
                "table {table}, number {index}: written {before}, read back {after}"
            );
        }
    }
    let order = Order {
        head: &outcome.head,
        inputs: tables.table(INPUTS),
        outputs: tables.table(OUTPUTS),
        items: tables.table(ITEMS),
        source: written,
    };
    let mut again = blank(written.len());
    assert_eq!(Archive::write(&order, &mut again).answer, FINISHED, "what was read back isn't written");
    assert!(again == written, "what was read back is written otherwise");
}
