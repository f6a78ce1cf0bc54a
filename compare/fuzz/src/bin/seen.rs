//! Says what the inputs of the named directories reach: each refusal by its cause, stages of forged states, and what is never seen.

use compare::plain;
use compare::slips::Slip;
use compare::tally::Tally;
use fuzz::plan::{Mode, Plan};
use fuzz::{forging, range, writing};

fn main() {
    let mut tally = Tally::default();
    let mut modes = [0; 4];
    // Forged states by stage: those that pass the range test, and those that don't.
    let (mut passed, mut failed) = ([0; 27], 0);
    for directory in std::env::args().skip(1) {
        for file in std::fs::read_dir(directory).expect("a directory of inputs") {
            let input = std::fs::read(file.expect("a file").path()).expect("an input");
            let plan = match Plan::of(&input) {
                Some(plan) => plan,
                None => continue,
            };
            modes[plan.mode as usize] += 1;
            plan.with_bytes(|bytes| {
                tally.inputs += 1;
                tally.bytes += bytes.len() as u64;
                match plan.mode {
                    Mode::Read | Mode::Twin => tally.reading(&plain::read(bytes, plan.sizes, Slip::None)),
                    Mode::Write => {
                        let case = writing::case_of(&plan, bytes, Slip::None);
                        tally.writings += 1;
                        tally.writing(plain::write(&case.order(), &mut vec![0; case.room], Slip::None).1);
                    }
                    Mode::Forge => {
                        let (state, ..) = forging::case_of(&plan, bytes);
                        match range::in_range(&state) {
                            true => passed[state[range::STAGE]] += 1,
                            false => failed += 1,
                        }
                    }
                }
            });
        }
    }
    tally.print();
    println!("modes: read, write, forge, twin: {modes:?}");
    println!("forged states: {failed} fail the range test; those that pass it, by stage: {passed:?}");
    println!("never seen: {}", tally.unseen().join(", "));
}
