//! Mutations that know the layout: they change a transaction where its reading stands, so that the fuzzer gets past prefixes,
//! counts and 32-byte parts in few steps. libFuzzer's own mutations do the rest.

use crate::bearing::bearing;
use crate::plan::{Edit, Mode, Plan, MOST_EDITS};
use compare::generate::Random;
use compare::log::Ending;
use compare::paper::*;
use compare::plain;
use compare::slips::Slip;

/// Bytes that mean something somewhere: prefixes, flags, what announces a longer count, the highest bits.
const TELLING: [u8; 18] = [0, 0, 1, 1, 2, 3, 4, 8, 9, 10, 11, 12, 64, 128, 252, 253, 254, 255];

/// Changes the input, or says that libFuzzer should.
pub fn mutate(input: &mut Vec<u8>, most: usize, random: &mut Random) -> bool {
    let mut plan = match Plan::of(input) {
        Some(plan) => plan,
        None => return false,
    };
    if random.once_in(2) {
        return false;
    }
    if plan.sea {
        // Its transaction can't be read without the sea; but the limit can be moved by a few bytes.
        plan.excess = plan.excess.wrapping_add(random.below(81) as i16 - 40);
        return put(input, &plan, most);
    }
    if plan.mode == Mode::Forge && random.once_in(4) {
        // How far the true reading goes.
        plan.first = random.below(plan.transaction.len() + 1) as u16;
        return put(input, &plan, most);
    }
    if matches!(plan.mode, Mode::Write | Mode::Forge) && random.once_in(2) {
        change_edit(&mut plan, random);
        return put(input, &plan, most);
    }
    let reading = plain::read(&plan.transaction, plan.sizes, Slip::None);
    let bytes = &mut plan.transaction;
    if random.once_in(3) {
        // Any bearing byte.
        let map = bearing(bytes, plan.sizes, &reading);
        let places: Vec<usize> = (0..bytes.len()).filter(|&at| map[at]).collect();
        if !places.is_empty() {
            bytes[random.choose(&places)] = random.choose(&TELLING);
        }
    } else {
        match reading.ending {
            Ending::Refused(refusal) if refusal.number == 4 => {
                let table = random.below(3);
                plan.sizes[table] += WIDTHS[table];
            }
            Ending::Refused(refusal) => {
                let at = random.choose(&[refusal.place, reading.taken - 1]).min(bytes.len() - 1);
                bytes[at] = random.choose(&TELLING);
            }
            Ending::More(..) => {
                for _ in 0..random.choose(&[1, 2, 4, 8, PART, 40]) {
                    bytes.push(random.choose(&TELLING));
                }
            }
            Ending::Finished(_) => {
                // What follows isn't read, and a flag makes witnesses wanted.
                bytes.truncate(reading.taken);
                if random.once_in(2) {
                    bytes[4] ^= 1;
                }
            }
        }
    }
    put(input, &plan, most)
}

fn put(input: &mut Vec<u8>, plan: &Plan, most: usize) -> bool {
    let changed = plan.input();
    if changed.len() > most {
        return false;
    }
    *input = changed;
    true
}

/// Another edit, or one more: of a number of the state or of the first records, mostly to one at which some bound lies.
fn change_edit(plan: &mut Plan, random: &mut Random) {
    let table = random.below(3);
    let power = 1u64 << random.below(64);
    let (small, near, any) = (random.below(32), random.below(2), random.draw());
    let value = random.choose(&[
        small as u64,
        power,
        power - 1,
        power.wrapping_neg(),
        (plan.sizes[table] / WIDTHS[table] + near) as u64,
        (LIMIT + near) as u64,
        VOUT_END as u64 - near as u64,
        ALL_ONES as u64 - near as u64,
        (plan.transaction.len() + near) as u64,
        any,
    ]);
    let edit = Edit { what: random.draw() as u8, index: random.below(2 * INPUT) as u16, value };
    if plan.edits.is_empty() || plan.edits.len() < MOST_EDITS - 1 && random.once_in(3) {
        plan.edits.push(edit);
    } else {
        let at = random.below(plan.edits.len());
        plan.edits[at] = edit;
    }
}
