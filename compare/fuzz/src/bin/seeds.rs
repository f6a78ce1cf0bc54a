//! Writes a first corpus into a directory: 01's loads, and cases of the judge's generator, in every mode.
//!
//! `seeds DIRECTORY [CASES]`. What comes out is merged into the kept corpus by `run --merge`.

use compare::damage::{self, Case, Sea};
use compare::generate::{Made, Random};
use compare::paper::*;
use fuzz::plan::{Edit, Mode, Plan, MODES, SIZES};
use std::path::PathBuf;

/// Longer transactions cost speed and show nothing new.
const LONGEST: usize = 2000;

fn main() {
    let mut arguments = std::env::args().skip(1);
    let directory = PathBuf::from(arguments.next().expect("the directory to write to"));
    let cases = arguments.next().map_or(4000, |cases| cases.parse().expect("a number of cases"));
    std::fs::create_dir_all(&directory).expect("a directory to write to");
    let mut random = Random::seeded(400);
    let mut plans = Vec::new();
    for bytes in loads() {
        for mode in MODES {
            plans.push(around(mode, bytes.clone(), [2, 2, 4], &mut random));
        }
    }
    let (mut made, mut case, mut sea) = (Made::default(), Case::default(), Sea::default());
    // Cases near the limit are rare: these are picked from many more.
    for number in 0..20 * cases {
        made.again(&mut random);
        damage::reading_case(&mut case, &made, &mut sea, &mut random);
        plans.extend(from_case(&case, &mut random).filter(|plan| plan.sea || number < cases));
        damage::retire(&mut case, &mut sea);
    }
    for (number, plan) in plans.iter().enumerate() {
        std::fs::write(directory.join(format!("seed-{number:05}")), plan.input()).expect("a seed written");
    }
    println!("{} seeds", plans.len());
}

/// A case of the generator as a plan, if it is short or a sea makes it so.
fn from_case(case: &Case, random: &mut Random) -> Option<Plan> {
    if case.sizes.iter().any(|&size| size >= SIZES) {
        return None;
    }
    let mode = random.choose(&MODES);
    let mut plan = around(mode, Vec::new(), [0, 0, 0], random);
    plan.sizes = case.sizes;
    if case.bytes.len() <= LONGEST {
        plan.transaction = case.bytes.clone();
        return Some(plan);
    }
    // The sea is the longest run of zero bytes.
    let excess = i16::try_from(case.bytes.len() as isize - LIMIT as isize).ok()?;
    let (mut start, mut end, mut from) = (0, 0, 0);
    for at in 0..=case.bytes.len() {
        if at == case.bytes.len() || case.bytes[at] != 0 {
            if at - from > end - start {
                (start, end) = (from, at);
            }
            from = at + 1;
        }
    }
    let (front, back) = (&case.bytes[..start], &case.bytes[end..]);
    if front.len() + back.len() > LONGEST || back.is_empty() {
        return None;
    }
    plan.sea = true;
    plan.behind = back.len() as u16;
    plan.excess = excess;
    plan.transaction = [front, back].concat();
    Some(plan)
}

/// A plan with some cuts and edits about these bytes.
fn around(mode: Mode, transaction: Vec<u8>, records: [usize; 3], random: &mut Random) -> Plan {
    let mut turns = [0; 4];
    for turn in &mut turns {
        *turn = random.choose(&[0, 1, 1, 2, 3, 7, 32, 33, 100]);
    }
    let edits = match mode {
        Mode::Read | Mode::Twin => 0,
        Mode::Write => random.choose(&[0, 0, 1, 1, 2, 3]),
        Mode::Forge => random.choose(&[0, 1, 1, 2, 4]),
    };
    Plan {
        mode,
        sizes: [0, 1, 2].map(|table| records[table] * WIDTHS[table]),
        first: random.choose(&[0, 1, 5, 6, 38, 42, 50, 100, 200, 400, 1000]),
        turns,
        other: random.choose(&[0, 1, 3, 16, 64]),
        sea: false,
        behind: 0,
        excess: 0,
        whim: random.draw() as u8,
        edits: (0..edits).map(|_| edit(random)).collect(),
        transaction,
    }
}

fn edit(random: &mut Random) -> Edit {
    let any = random.draw();
    let value = random.choose(&[0, 1, 2, 3, 8, any % 32, any % 300, LIMIT as u64, u32::MAX as u64, u64::MAX, any]);
    Edit { what: random.draw() as u8, index: random.below(80) as u16, value }
}

/// 01's "Loads to try" that are short.
fn loads() -> Vec<Vec<u8>> {
    let small = |flag: u8| vec![2, 0, 0, 0, flag, 0, 0, 0, 0, 0, 0];
    let mut loads = vec![small(0), small(1), small(2), small(0)[..10].to_vec(), [small(0), vec![0]].concat()];
    // Lengths of an input's script.
    for form in ["fc", "fdfd00", "fdfc00", "fe00000100", "feffff0000"] {
        let length = form.as_bytes().chunks(2).map(|digits| {
            u8::from_str_radix(std::str::from_utf8(digits).expect("digits"), 16).expect("a byte in digits")
        });
        let mut bytes = input_up_to_vout(0, 0);
        bytes.extend(length);
        bytes.extend([0x33; 300]);
        loads.push(bytes);
    }
    for raw in [ALL_ONES, 0xbfff_ffff] {
        let mut bytes = one_and_one(0);
        bytes[38..42].copy_from_slice(&raw.to_le_bytes());
        loads.push(bytes);
    }
    loads.push(one_and_one(0));
    loads.push([one_and_one(1), vec![0, 0, 1, 0, 0, 0, 0]].concat());
    // Null issuance: 6 at 47.
    let mut null = input_up_to_vout(0, 0x8000_0000);
    null.extend([0, 0xfe, 0xff, 0xff, 0xff]);
    null.extend([0; 66]);
    loads.push(null);
    loads
}

/// Version, flag, one input up to and with its raw vout.
fn input_up_to_vout(flag: u8, raw: u32) -> Vec<u8> {
    let mut bytes = vec![2, 0, 0, 0, flag, 1];
    bytes.extend([0x11; 32]);
    bytes.extend(raw.to_le_bytes());
    bytes
}

/// The 96-byte load.
fn one_and_one(flag: u8) -> Vec<u8> {
    let mut bytes = input_up_to_vout(flag, 0);
    bytes.extend([0, 0xfe, 0xff, 0xff, 0xff, 1, 1]);
    bytes.extend([0x22; 32]);
    bytes.push(1);
    bytes.extend(400u64.to_be_bytes());
    bytes.extend([0; 6]);
    bytes
}
