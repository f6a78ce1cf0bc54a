//! How long each form takes for the same readings, so that "fast" is a figure.

#[cfg(feature = "archive")]
use crate::archive::Archive;
use crate::forms::{Feeds, Reads, Resume, Whole};
use crate::generate::{Made, Random};
use crate::log::Ending;
use crate::paper::*;
use crate::plain;
use crate::slips::Slip;
use crate::tables::Tables;
use std::time::Instant;

/// A sound transaction and tables that just hold it.
struct Load {
    bytes: Vec<u8>,
    sizes: [usize; 3],
}

/// Prints nanoseconds for each reading, and for each byte, of every form.
pub fn run(seed: u64) {
    let small = loads(seed, 1000, |length| length < 2000);
    let large = vec![many_inputs(20_000)];
    for (name, loads, rounds) in [("1000 small transactions", small, 40), ("20,000 inputs", large, 40)] {
        let bytes: usize = loads.iter().map(|load| load.bytes.len()).sum();
        println!("{name}, {bytes} bytes:");
        let report = |form: &str, nanoseconds: f64| {
            let each = nanoseconds / loads.len() as f64;
            println!("  {form:24} {each:12.0} ns each, {:8.3} ns a byte", nanoseconds / bytes as f64);
        };
        report("plain", timed(&loads, rounds, plainly));
        report("whole", timed(&loads, rounds, at_once::<Whole>));
        report("resume, one piece", timed(&loads, rounds, |load, tables| fed::<Resume>(load, tables, usize::MAX)));
        report("resume, pieces of 64", timed(&loads, rounds, |load, tables| fed::<Resume>(load, tables, 64)));
        #[cfg(feature = "archive")]
        {
            report("archive, at once", timed(&loads, rounds, at_once::<Archive>));
            report(
                "archive, one piece",
                timed(&loads, rounds, |load, tables| fed::<Archive>(load, tables, usize::MAX)),
            );
            report("archive, pieces of 64", timed(&loads, rounds, |load, tables| fed::<Archive>(load, tables, 64)));
        }
    }
}

/// Sound transactions as the generator makes them.
fn loads(seed: u64, count: usize, fits: impl Fn(usize) -> bool) -> Vec<Load> {
    let mut random = Random::seeded(seed);
    let mut made = Made::default();
    let mut loads = Vec::new();
    while loads.len() < count {
        made.again(&mut random);
        let sizes = [0, 1, 2].map(|table| made.counts[table] * WIDTHS[table]);
        let sound = matches!(plain::read(&made.bytes, sizes, Slip::None).ending, Ending::Finished(_));
        if sound && fits(made.bytes.len()) {
            loads.push(Load { bytes: made.bytes.clone(), sizes });
        }
    }
    loads
}

/// One transaction of so many plain inputs with a script of 100 bytes.
fn many_inputs(count: usize) -> Load {
    let mut bytes = vec![2, 0, 0, 0, 0, 253];
    bytes.extend((count as u16).to_le_bytes());
    for _ in 0..count {
        bytes.extend([0; 36]);
        bytes.push(100);
        bytes.extend([1; 104]);
    }
    bytes.extend([0; 5]);
    Load { bytes, sizes: [count * INPUT, 0, 0] }
}

/// The least time of a few rounds over all loads.
fn timed(loads: &[Load], rounds: usize, read: impl Fn(&Load, &mut Tables)) -> f64 {
    let mut tables: Vec<Tables> = loads.iter().map(|_| Tables::default()).collect();
    for (load, tables) in loads.iter().zip(&mut tables) {
        tables.prepare(load.sizes);
    }
    (0..rounds)
        .map(|_| {
            let started = Instant::now();
            for (load, tables) in loads.iter().zip(&mut tables) {
                read(load, tables);
            }
            started.elapsed().as_nanos() as f64
        })
        .fold(f64::INFINITY, f64::min)
}

/// Hides a value from the optimiser, so that what is timed is not left out. (`std::hint::black_box` is younger than the
/// compiler of Debian 12.)
pub(crate) fn black_box<T>(mut value: T) -> T {
    // SAFETY: there is no instruction; the compiler has to think that it reads and writes the value.
    unsafe { std::arch::asm!("/* {0} */", in(reg) &mut value as *mut T, options(nostack, preserves_flags)) };
    value
}

fn plainly(load: &Load, tables: &mut Tables) {
    let reading = plain::read(black_box(&load.bytes), load.sizes, Slip::None);
    black_box(plain::read_at_once(&reading, load.bytes.len(), &mut tables.lent(), true, Slip::None));
}

fn at_once<R: Reads>(load: &Load, tables: &mut Tables) {
    black_box(R::read(black_box(&load.bytes), &mut tables.lent(), true));
}

fn fed<F: Feeds>(load: &Load, tables: &mut Tables, piece: usize) {
    let mut state = F::fresh(&mut tables.lent());
    for piece in black_box(&load.bytes).chunks(piece) {
        (state, _) = F::push(state, piece, &mut tables.lent());
    }
    black_box(F::end(state, &mut tables.lent()).1);
}
