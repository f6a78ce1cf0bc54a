//! How fast the library is beside the judge's fast forms, on realistic transactions, in one run.
//!
//! Both sides get the same bytes, the same tables of the gate's sizes, and are called through a pointer to a function
//! that isn't inlined, so neither is compiled for these sizes. Their rounds alternate, so that a disturbance hits both.

mod desk;
mod judge;
mod ours;

use crate::clock::black_box;
use crate::paper::*;
use crate::realistic::Night;
use desk::{Desk, SIZES};
use std::time::Instant;

/// The part that stays in the cache: so many transactions from the front.
const NEAR: usize = 40;

/// Transactions of one clocked round: short enough that most rounds aren't interrupted, long enough that its pages
/// exceed what the processor remembers of them.
const STRETCH: usize = 2_000;

/// One call, or one reading with its few calls. The load's source is the transaction, its tables are those of its reading.
type Act = fn(&Order, &mut Desk);

/// What is measured: the same work, once by the library, once by the judge's form.
struct Form {
    name: &'static str,
    against: &'static str,
    ours: Act,
    judge: Act,
    /// Whether both sides left the same answer, and the right one.
    agree: fn(&Order, &Desk, &Desk) -> bool,
    /// Whether the work goes over the transaction, so that MB/s says something.
    goes_over: bool,
}

#[rustfmt::skip]
const FORMS: [Form; 6] = [
    Form { name: "fresh start alone", against: "Lent::zero", ours: ours::fresh, judge: judge::fresh, agree: cleared, goes_over: false },
    Form { name: "at once, strict", against: "whole", ours: ours::at_once, judge: judge::at_once, agree: read, goes_over: true },
    Form { name: "fed in one piece", against: "resume", ours: ours::one_piece, judge: judge::one_piece, agree: read, goes_over: true },
    Form { name: "fed in pieces of 1,400", against: "resume", ours: ours::pieces, judge: judge::pieces, agree: read, goes_over: true },
    Form { name: "write", against: "writer", ours: ours::write, judge: judge::write, agree: written, goes_over: true },
    Form { name: "written length", against: "writer", ours: ours::length, judge: judge::length, agree: length, goes_over: false },
];

fn cleared(_: &Order, ours: &Desk, judge: &Desk) -> bool {
    ours.inputs.iter().chain(&ours.outputs).chain(&ours.items).all(|&number| number == 0) && same_tables(ours, judge)
}

fn read(load: &Order, ours: &Desk, judge: &Desk) -> bool {
    let Outcome { answer, place, taken, head } = judge.outcome;
    let finished = answer == FINISHED && head[6] as usize == load.source.len();
    finished && ours.answer == [answer, place, taken] && ours.head == head && same_tables(ours, judge)
}

fn same_tables(ours: &Desk, judge: &Desk) -> bool {
    ours.inputs == judge.inputs && ours.outputs == judge.outputs && ours.items == judge.items
}

fn written(load: &Order, ours: &Desk, judge: &Desk) -> bool {
    // Behind the written bytes both outputs keep what former ones left.
    length(load, ours, judge) && ours.output == judge.output && ours.output.starts_with(load.source)
}

fn length(load: &Order, ours: &Desk, judge: &Desk) -> bool {
    let Written { answer, place, length } = judge.written;
    answer == FINISHED && length == load.source.len() && ours.answer == [answer, place, length]
}

/// Checks both sides on every transaction, then measures. False if they differ.
pub fn run(seed: u64, count: usize, rounds: usize) -> bool {
    let night = Night::seeded(seed, count);
    let kept = kept(&night);
    let loads = loads(&night, &kept);
    if !all_agree(&loads) {
        return false;
    }
    let megabytes = night.bytes().len() as f64 / 1e6;
    println!("{count} transactions of seed {seed}, {megabytes:.1} MB; tables of {SIZES:?} numbers; {rounds} rounds.");
    println!("Both sides gave the same answers, tables and bytes for all of them.\n");
    println!("Nanoseconds for a transaction, least and median of the rounds; MB/s and the ratio from the least.\n");
    println!("| Form | Judge's form | Bytes | Ours, ns | Judge's, ns | Ours, MB/s | Judge's, MB/s | Ratio | Ratio of medians |");
    println!("|---|---|---|---|---|---|---|---|---|");
    for form in &FORMS {
        print_row(form, "whole file", &Course::whole_file(&loads), rounds);
        print_row(form, "in cache", &Course::in_cache(&loads), rounds);
    }
    true
}

/// Does each form's work once for each transaction, for a tool that counts instructions.
pub fn once(seed: u64, count: usize) -> bool {
    let night = Night::seeded(seed, count);
    let kept = kept(&night);
    let loads = loads(&night, &kept);
    let mut desk = Desk::new(longest(&loads));
    for form in &FORMS {
        for act in [form.ours, form.judge] {
            pass(act, &loads, &mut desk);
        }
    }
    true
}

/// What a finished reading leaves, cut to the counts: the writer reads no more.
struct Kept {
    head: Head,
    tables: [Vec<u32>; 3],
}

fn kept(night: &Night) -> Vec<Kept> {
    let mut desk = Desk::new(0);
    let mut keep = |bytes| {
        judge::read(bytes, &mut desk);
        let head = desk.outcome.head;
        let cut = |table: &[u32], at: usize| table[..head[2 + at] as usize * WIDTHS[at]].to_vec();
        Kept { head, tables: [cut(&desk.inputs, INPUTS), cut(&desk.outputs, OUTPUTS), cut(&desk.items, ITEMS)] }
    };
    night.transactions().map(&mut keep).collect()
}

fn loads<'a>(night: &'a Night, kept: &'a [Kept]) -> Vec<Order<'a>> {
    let load = |(source, Kept { head, tables: [inputs, outputs, items] }): (&'a [u8], &'a Kept)| Order {
        head,
        inputs,
        outputs,
        items,
        source,
    };
    night.transactions().zip(kept).map(load).collect()
}

fn longest(loads: &[Order]) -> usize {
    loads.iter().map(|load| load.source.len()).max().unwrap_or(0)
}

/// Each form on each transaction, by both sides.
fn all_agree(loads: &[Order]) -> bool {
    let (mut ours, mut judge) = (Desk::new(longest(loads)), Desk::new(longest(loads)));
    for form in &FORMS {
        for (number, load) in loads.iter().enumerate() {
            (form.ours)(load, &mut ours);
            (form.judge)(load, &mut judge);
            if !(form.agree)(load, &ours, &judge) {
                println!("transaction {number}: {} differs", form.name);
                return false;
            }
        }
    }
    true
}

/// The transactions of one clocked round, how often it goes over them, and whether it starts with none of them in the cache.
#[derive(Clone, Copy)]
struct Stretch<'a> {
    loads: &'a [Order<'a>],
    times: usize,
    far: bool,
}

impl Stretch<'_> {
    /// One round's nanoseconds.
    fn clocked(&self, act: Act, desk: &mut Desk) -> f64 {
        if self.far {
            self.loads.iter().for_each(flush_load);
            await_flushes();
        } else {
            pass(act, self.loads, desk);
        }
        let started = Instant::now();
        for _ in 0..self.times {
            pass(act, self.loads, desk);
        }
        started.elapsed().as_nanos() as f64
    }
}

/// Stretches, whose times are added up.
struct Course<'a>(Vec<Stretch<'a>>);

impl<'a> Course<'a> {
    /// Every transaction once, none of them in the cache.
    fn whole_file(loads: &'a [Order<'a>]) -> Course<'a> {
        Course(loads.chunks(STRETCH).map(|loads| Stretch { loads, times: 1, far: true }).collect())
    }

    /// The first few again and again, as many readings in all.
    fn in_cache(loads: &'a [Order<'a>]) -> Course<'a> {
        let near = &loads[..NEAR.min(loads.len())];
        let stretch = Stretch { loads: near, times: STRETCH / NEAR, far: false };
        Course(vec![stretch; (loads.len() + STRETCH - 1) / STRETCH])
    }

    fn transactions(&self) -> usize {
        self.0.iter().map(|stretch| stretch.loads.len() * stretch.times).sum()
    }

    /// Bytes of a transaction.
    fn mean_bytes(&self) -> f64 {
        let loads = || self.0.iter().flat_map(|stretch| stretch.loads);
        loads().map(|load| load.source.len()).sum::<usize>() as f64 / loads().count() as f64
    }

    /// Nanoseconds for a transaction, least and median: of ours, of the judge's. Sums of each stretch's.
    fn measured(&self, form: &Form, rounds: usize) -> [[f64; 2]; 2] {
        let mut desk = Desk::new(self.0.iter().map(|stretch| longest(stretch.loads)).max().unwrap_or(0));
        let mut sums = [[0.0; 2]; 2];
        for stretch in &self.0 {
            let mut times = [Vec::new(), Vec::new()];
            for _ in 0..rounds {
                times[0].push(stretch.clocked(form.ours, &mut desk));
                times[1].push(stretch.clocked(form.judge, &mut desk));
            }
            for (sum, times) in sums.iter_mut().zip(times) {
                let [least, median] = least_and_median(times);
                *sum = [sum[0] + least, sum[1] + median];
            }
        }
        sums.map(|sum| sum.map(|time| time / self.transactions() as f64))
    }
}

fn pass(act: Act, loads: &[Order], desk: &mut Desk) {
    for load in loads {
        black_box(act)(black_box(load), desk);
    }
    black_box(desk);
}

fn print_row(form: &Form, bytes: &str, course: &Course, rounds: usize) {
    let [[our_least, our_median], [judge_least, judge_median]] = course.measured(form, rounds);
    let ratios = [our_least / judge_least, our_median / judge_median].map(|ratio| format!("{ratio:.2}"));
    let speeds = [our_least, judge_least].map(|time| match form.goes_over {
        true => format!("{:.0}", course.mean_bytes() * 1e3 / time),
        false => "".to_string(),
    });
    let columns = [
        form.name.to_string(),
        format!("`{}`", form.against),
        bytes.to_string(),
        format!("{our_least:.0}, {our_median:.0}"),
        format!("{judge_least:.0}, {judge_median:.0}"),
        speeds.join(" | "),
        ratios.join(" | "),
    ];
    println!("| {} |", columns.join(" | "));
}

fn least_and_median(mut times: Vec<f64>) -> [f64; 2] {
    times.sort_by(f64::total_cmp);
    [times[0], times[times.len() / 2]]
}

/// Puts a transaction and its tables out of every cache. Readers skip nearly all bytes, so that what they do touch of a
/// file of any size would fit into a large cache and be found there in the next round.
fn flush_load(load: &Order) {
    flush(load.source);
    flush(load.inputs);
    flush(load.outputs);
    flush(load.items);
}

fn flush<T>(slice: &[T]) {
    const LINE: usize = 64;
    let bytes = slice.as_ptr_range();
    let mut at = bytes.start.cast::<u8>();
    while at < bytes.end.cast() {
        // SAFETY: `at` lies in the slice; flushing a line changes no value.
        unsafe { flush_line(at) };
        at = at.wrapping_add(LINE);
    }
}

#[cfg(target_arch = "x86_64")]
unsafe fn flush_line(at: *const u8) {
    std::arch::x86_64::_mm_clflush(at);
}

#[cfg(target_arch = "x86_64")]
fn await_flushes() {
    // SAFETY: has no memory to do with.
    unsafe { std::arch::x86_64::_mm_mfence() };
}

#[cfg(target_arch = "aarch64")]
unsafe fn flush_line(at: *const u8) {
    std::arch::asm!("dc civac, {0}", in(reg) at, options(nostack, preserves_flags));
}

#[cfg(target_arch = "aarch64")]
fn await_flushes() {
    // SAFETY: has no memory to do with.
    unsafe { std::arch::asm!("dsb ish", options(nostack, preserves_flags)) };
}
