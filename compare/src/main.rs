//! `compare`: the driver's commands.
//!
//! - `compare [run] [--seed N] [--count N] [--seconds N] [--from N] [--least N] [--against WHOM] [--slip N]`
//! - `compare slips [--seed N] [--count N] [--against WHOM]`
//! - `compare forge [--seed N] [--count N] [--seconds N] [--from N] [--least N]`
//! - `compare program --path P [--seed N] [--count N] [--seconds N] [--from N] [--least N] [--against WHOM]`
//! - `compare time [--seed N]`
//! - `compare speed [--seed N] [--count N] [--rounds N] [--once]`
//!
//! WHOM is `all`, the default, `archive` or `own`. All but `--against own` and `time` want the feature `archive`.

use compare::drive::{Difference, Found, Run};
use compare::forms::{Against, ARCHIVE};
use compare::shrink;
use compare::slips::{Slip, SLIPS};
use compare::terms::Terms;
use std::process::ExitCode;
use std::time::{Duration, Instant};

struct Options {
    command: String,
    seed: u64,
    count: Option<u64>,
    seconds: Option<u64>,
    from: u64,
    least: Option<u64>,
    against: Against,
    slip: usize,
    path: Option<String>,
    rounds: usize,
    once: bool,
}

const DEFAULT_SEED: u64 = 400;
const DEFAULT_COUNT: u64 = 200_000;
const DEFAULT_PROGRAM_COUNT: u64 = 5_000;
const DEFAULT_SLIP_COUNT: u64 = 3_000_000;
const DEFAULT_ROUNDS: usize = 15;
#[cfg(feature = "archive")]
const DEFAULT_SPEED_COUNT: u64 = 20_000;

/// The fewest cases that are a pass, and the fewest for each second asked for; the greater holds. The first number is about what it
/// takes until every kind of case was seen, by the seeds tried: up to 100,000 inputs, 2,000 forged cases, 700 inputs of the program.
/// The second lets an emulator on a busy machine pass (862 inputs, 1,928 forged cases and 8 inputs of the program a second were
/// seen), and a machine that hardly runs fail.
const LEAST_INPUTS: (u64, u64) = (50_000, 500);
const LEAST_PROGRAM: (u64, u64) = (1_000, 5);
#[cfg(feature = "archive")]
const LEAST_FORGED: (u64, u64) = (10_000, 500);

fn options() -> Result<Options, String> {
    let mut options = Options {
        command: "run".into(),
        seed: DEFAULT_SEED,
        count: None,
        seconds: None,
        from: 0,
        least: None,
        against: Against::All,
        slip: 0,
        path: None,
        rounds: DEFAULT_ROUNDS,
        once: false,
    };
    let mut words = std::env::args().skip(1);
    while let Some(word) = words.next() {
        let mut value = || words.next().ok_or(format!("{word} wants a value"));
        let mut number = || -> Result<u64, String> {
            let text = value()?;
            text.parse().map_err(|_| format!("{word} wants a number, not {text}"))
        };
        match word.as_str() {
            "run" | "slips" | "forge" | "time" | "program" | "speed" => options.command = word,
            "--seed" => options.seed = number()?,
            "--count" => options.count = Some(number()?),
            "--seconds" => options.seconds = Some(number()?),
            "--from" => options.from = number()?,
            "--least" => options.least = Some(number()?),
            "--slip" => options.slip = number()? as usize,
            "--rounds" => options.rounds = number()?.max(1) as usize,
            "--once" => options.once = true,
            "--path" => options.path = Some(value()?),
            "--against" => options.against = whom(&value()?)?,
            _ => return Err(format!("unknown word {word}")),
        }
    }
    let needs_archive = match options.command.as_str() {
        "time" => false,
        "forge" | "speed" => true,
        _ => options.against.archive(),
    };
    if needs_archive && !ARCHIVE {
        let complaint =
            "the library isn't compiled in: build with --features archive (--against own judges the own forms alone)";
        return Err(complaint.into());
    }
    Ok(options)
}

fn whom(word: &str) -> Result<Against, String> {
    match word {
        "all" => Ok(Against::All),
        "archive" => Ok(Against::Archive),
        "own" => Ok(Against::Own),
        _ => Err(format!("--against wants all, archive or own, not {word}")),
    }
}

impl Options {
    /// The terms of a run whose cases are this many by default, and at least so many, or so many a second.
    fn terms(&self, count: u64, (least, a_second): (u64, u64)) -> Terms {
        Terms {
            seed: self.seed,
            from: self.from,
            count: self.count.unwrap_or(if self.seconds.is_some() { u64::MAX } else { count }),
            time: self.seconds.map(Duration::from_secs),
            least: self.least.unwrap_or(least.max(a_second.saturating_mul(self.seconds.unwrap_or(0)))),
            started: Instant::now(),
        }
    }
}

fn main() -> ExitCode {
    let options = match options() {
        Ok(options) => options,
        Err(complaint) => {
            eprintln!("{complaint}");
            return ExitCode::from(2);
        }
    };
    let sound = match options.command.as_str() {
        "slips" => slips(&options),
        "forge" => forge(&options),
        "program" => program(&options),
        "speed" => speed(&options),
        "time" => {
            compare::clock::run(options.seed);
            true
        }
        _ => run(&options),
    };
    if sound {
        ExitCode::SUCCESS
    } else {
        ExitCode::FAILURE
    }
}

/// Compares until the count or the time is used up, or a difference shows.
fn run(options: &Options) -> bool {
    let slip = match Slip::numbered(options.slip) {
        Some(slip) => slip,
        None => {
            eprintln!("there are {} slips", SLIPS.len());
            return false;
        }
    };
    let terms = options.terms(DEFAULT_COUNT, LEAST_INPUTS);
    println!("seed {}, from case {}; compared with plain: {}", terms.seed, terms.from, options.against.names());
    #[cfg(feature = "archive")]
    compare::watch::start(terms.seed);
    let mut run = Run::new(terms.seed, slip, options.against);
    for number in terms.cases() {
        #[cfg(feature = "archive")]
        compare::watch::case(number);
        if let Err((difference, found)) = run.step(number) {
            println!("case {number} of seed {}: {} differs", terms.seed, difference.subject);
            report(difference, found, slip, options.against);
            return false;
        }
        if number % 256 == 0 && terms.time_is_up() {
            break;
        }
    }
    run.bench.tally.print();
    terms.passed(run.bench.tally.inputs, &run.bench.tally.unseen())
}

fn report(difference: Difference, found: Found, slip: Slip, against: Against) {
    match found {
        Found::Reading(case) => {
            let (case, difference) = shrink::shrink_reading(case, difference, slip, against);
            shrink::print_reading(&case, &difference);
        }
        Found::Writing(case) => {
            let (case, difference) = shrink::shrink_writing(case, difference, slip, against);
            shrink::print_writing(&case, &difference);
        }
    }
}

/// Switches each slip on and demands that it is found.
fn slips(options: &Options) -> bool {
    let count = options.count.unwrap_or(DEFAULT_SLIP_COUNT);
    println!("seed {}, at most {count} inputs for each slip", options.seed);
    let mut missed = 0;
    for (at, &(slip, words)) in SLIPS.iter().enumerate() {
        let mut run = Run::new(options.seed, slip, options.against);
        let found = (0..count).find_map(|number| run.step(number).err().map(|_| number + 1));
        match found {
            Some(inputs) => println!("{:3} FOUND after {inputs} inputs: {words}", at + 1),
            None => {
                missed += 1;
                println!("{:3} NOT FOUND in {count} inputs: {words}", at + 1);
            }
        }
    }
    println!("{} slips, {missed} not found; compared with plain: {}", SLIPS.len(), options.against.names());
    missed == 0
}

/// Judges the program that reads standard input.
fn program(options: &Options) -> bool {
    match &options.path {
        Some(path) => {
            compare::program::run(path, &options.terms(DEFAULT_PROGRAM_COUNT, LEAST_PROGRAM), options.against)
        }
        None => {
            eprintln!("program wants --path");
            false
        }
    }
}

#[cfg(feature = "archive")]
fn forge(options: &Options) -> bool {
    compare::forge::run(&options.terms(DEFAULT_COUNT, LEAST_FORGED))
}

/// The library beside the judge's fast forms; with `--once` nothing is clocked.
#[cfg(feature = "archive")]
fn speed(options: &Options) -> bool {
    let count = options.count.unwrap_or(DEFAULT_SPEED_COUNT).max(1) as usize;
    if options.once {
        compare::speed::once(options.seed, count)
    } else {
        compare::speed::run(options.seed, count, options.rounds)
    }
}

#[cfg(not(feature = "archive"))]
fn forge(_: &Options) -> bool {
    false
}

#[cfg(not(feature = "archive"))]
fn speed(_: &Options) -> bool {
    false
}
