//! The libFuzzer target.
#![no_main]

use compare::generate::Random;
use compare::slips::Slip;
use std::slice::{from_raw_parts, from_raw_parts_mut};

extern "C" {
    /// libFuzzer's own mutations.
    fn LLVMFuzzerMutate(data: *mut u8, size: usize, most: usize) -> usize;
}

thread_local! {
    /// The environment's FUZZ_SLIP switches one of the judge's slips on, to see that the fuzzer finds it.
    static SLIP: Slip = {
        let number = std::env::var("FUZZ_SLIP").ok().map(|number| number.parse().expect("FUZZ_SLIP is a number"));
        Slip::numbered(number.unwrap_or(0)).expect("there is no such slip")
    };
}

/// # Safety
/// libFuzzer hands over so many bytes.
#[no_mangle]
pub unsafe extern "C" fn LLVMFuzzerTestOneInput(data: *const u8, size: usize) -> i32 {
    // SAFETY: as said; where there are none the pointer isn't looked at.
    let input = if size == 0 { &[][..] } else { unsafe { from_raw_parts(data, size) } };
    SLIP.with(|&slip| fuzz::check(input, slip));
    0
}

/// # Safety
/// libFuzzer hands over so many bytes, in a buffer that holds the most.
#[no_mangle]
pub unsafe extern "C" fn LLVMFuzzerCustomMutator(data: *mut u8, size: usize, most: usize, seed: u32) -> usize {
    // SAFETY: as said.
    let buffer = unsafe { from_raw_parts_mut(data, most) };
    let mut input = buffer[..size].to_vec();
    if !fuzz::mutate::mutate(&mut input, most, &mut Random::seeded(seed as u64)) {
        // SAFETY: the same buffer.
        return unsafe { LLVMFuzzerMutate(data, size, most) };
    }
    buffer[..input.len()].copy_from_slice(&input);
    input.len()
}
