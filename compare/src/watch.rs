//! If the library crashes or hangs, say in which case, so that it can be run alone.

use std::sync::atomic::{AtomicU64, Ordering};

static SEED: AtomicU64 = AtomicU64::new(0);
static CASE: AtomicU64 = AtomicU64::new(0);

extern "C" {
    fn signal(number: i32, handler: extern "C" fn(i32)) -> usize;
    fn alarm(seconds: u32) -> u32;
    fn write(file: i32, bytes: *const u8, length: usize) -> isize;
    fn _exit(status: i32) -> !;
}

/// Bus error, arithmetic fault, bad memory, bad instruction, abort, alarm (Linux).
const SIGNALS: [i32; 6] = [7, 8, 11, 4, 6, 14];
const STDERR: i32 = 2;
/// No case takes nearly as long.
const PATIENCE: u32 = 60;

pub fn start(seed: u64) {
    SEED.store(seed, Ordering::Relaxed);
    for number in SIGNALS {
        // SAFETY: the handler does nothing but write from the stack and exit.
        unsafe { signal(number, fell) };
    }
}

/// Called before each case.
pub fn case(number: u64) {
    CASE.store(number, Ordering::Relaxed);
    if number % 256 == 0 {
        // SAFETY: has no memory to do with.
        unsafe { alarm(PATIENCE) };
    }
}

extern "C" fn fell(number: i32) {
    say(b"\nCRASH OR HANG: signal ");
    say_number(number as u64);
    say(b" in case ");
    say_number(CASE.load(Ordering::Relaxed));
    say(b" of seed ");
    say_number(SEED.load(Ordering::Relaxed));
    say(b"; run it alone with --seed, --from and --count 1\n");
    // SAFETY: ends the process without running anything else.
    unsafe { _exit(3) }
}

fn say(bytes: &[u8]) {
    // SAFETY: the pointer goes with its length.
    unsafe { write(STDERR, bytes.as_ptr(), bytes.len()) };
}

/// No allocation in a signal handler: digits go into an array.
fn say_number(mut number: u64) {
    let mut digits = [b'0'; 20];
    let mut at = digits.len();
    loop {
        at -= 1;
        digits[at] = b'0' + (number % 10) as u8;
        number /= 10;
        if number == 0 {
            return say(&digits[at..]);
        }
    }
}
