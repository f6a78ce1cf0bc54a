//! The library against the original's own text.
//!
//! - `original [run] [--seed N] [--count N] [--seconds N] [--from N] [--least N]`: the judge's inputs; fails on a
//!   difference that no clause of the domain explains, on fewer inputs than `--least`, and if some feature, refusal or
//!   clause was never seen.
//! - `original slips [--seed N] [--count N]`: the judge's plain forms in the library's place, with one slip after the
//!   other; each must be found.
//! - `original differences`: each difference that docs/DIFFERENCES.md names, by an input.

use compare::drive::hex;
use compare::generate::Random;
use compare::paper::WIDTHS;
use compare::slips::{Slip, SLIPS};
use original::cases::{self, Cases};
use original::drive::{check, Bench, Input};
use original::ours::{Library, Ours, Slipped};
use std::process::ExitCode;
use std::time::{Duration, Instant};

struct Options {
    command: String,
    seed: u64,
    count: Option<u64>,
    seconds: Option<u64>,
    from: u64,
    least: u64,
}

const DEFAULT_COUNT: u64 = 200_000;

fn options() -> Result<Options, String> {
    let mut options = Options { command: "run".into(), seed: 400, count: None, seconds: None, from: 0, least: 1 };
    let mut words = std::env::args().skip(1);
    while let Some(word) = words.next() {
        let mut number = || -> Result<u64, String> {
            let text = words.next().ok_or(format!("{word} wants a number"))?;
            text.parse().map_err(|_| format!("{word} wants a number, not {text}"))
        };
        match word.as_str() {
            "run" | "slips" | "differences" => options.command = word,
            "--seed" => options.seed = number()?,
            "--count" => options.count = Some(number()?),
            "--seconds" => options.seconds = Some(number()?),
            "--from" => options.from = number()?,
            "--least" => options.least = number()?,
            _ => return Err(format!("unknown word {word}")),
        }
    }
    Ok(options)
}

fn main() -> ExitCode {
    let options = match options() {
        Ok(options) => options,
        Err(complaint) => {
            eprintln!("{complaint}");
            return ExitCode::from(2);
        }
    };
    let sound = match options.command.as_str() {
        "slips" => slips(&options),
        "differences" => original::differences::run(),
        _ => run(&options),
    };
    if sound {
        ExitCode::SUCCESS
    } else {
        ExitCode::FAILURE
    }
}

fn run(options: &Options) -> bool {
    println!("seed {}, from case {}", options.seed, options.from);
    compare::watch::start(options.seed);
    let started = Instant::now();
    let count = options.count.unwrap_or(if options.seconds.is_some() { u64::MAX } else { DEFAULT_COUNT });
    let until = options.seconds.map(|seconds| started + Duration::from_secs(seconds));
    let mut bench = Bench::default();
    if let Err((name, what)) = wide(&mut Library, &mut bench) {
        println!("{name}: {what}");
        return false;
    }
    let mut cases = Cases::new(options.seed);
    for number in options.from..options.from.saturating_add(count) {
        compare::watch::case(number);
        let mut random = cases.make(number);
        if let Err(what) = check(&mut Library, cases.input(), &mut random, &mut bench) {
            println!("case {number} of seed {}: {what}", options.seed);
            report(&cases, &what);
            return false;
        }
        if number % 256 == 0 && until.map_or(false, |until| Instant::now() > until) {
            break;
        }
    }
    bench.tally.print();
    let unseen = bench.tally.unseen();
    println!("never seen: {}", if unseen.is_empty() { "none".into() } else { unseen.join(", ") });
    let (seconds, inputs) = (started.elapsed().as_secs_f64(), bench.tally.cases);
    println!("{inputs} inputs in {seconds:.1} s, at least {} wanted; no difference on the domain", options.least);
    unseen.is_empty() && inputs >= options.least
}

/// The cases that chance seldom makes.
fn wide(ours: &mut impl Ours, bench: &mut Bench) -> Result<(), (String, String)> {
    let mut random = Random::seeded(1);
    for (name, bytes, records) in cases::wide() {
        let sizes = [0, 1, 2].map(|table| records[table] * WIDTHS[table]);
        for pieces in [vec![], vec![5, 1, 0, 1000.min(bytes.len() - 6)]] {
            check(ours, Input { bytes: &bytes, pieces: &pieces, sizes }, &mut random, bench)
                .map_err(|what| (name.clone(), what))?;
        }
    }
    Ok(())
}

/// The case, and the shortest front of it that shows a difference.
fn report(cases: &Cases, what: &str) {
    let Input { bytes, pieces, sizes } = cases.input();
    println!("bytes: {}\nsizes {sizes:?}, pieces {pieces:?}", hex(bytes));
    let mut bench = Bench::default();
    let shorter = (0..bytes.len().min(5000)).find(|&length| {
        let front = Input { bytes: &bytes[..length], pieces: &[], sizes };
        check(&mut Library, front, &mut Random::seeded(1), &mut bench).is_err()
    });
    if let Some(length) = shorter {
        println!("{what}: already in the first {length} bytes, in one piece: {}", hex(&bytes[..length]));
    }
}

/// Slips that show in what is accepted, in a field or in the bytes written. Those of places, of moments and of calls
/// have no counterpart in the original.
const TRIED: [Slip; 38] = [
    Slip::AmountReadLittle,
    Slip::AllOnesSplit,
    Slip::FlagBitsSwapped,
    Slip::FlagBitsKept,
    Slip::Prefix9Refused,
    Slip::Prefix11Refused,
    Slip::Prefix3Refused,
    Slip::AssetPrefix2Allowed,
    Slip::ValuePrefix10Allowed,
    Slip::ShortestFormOff,
    Slip::EightBytesAlwaysShortest,
    Slip::LengthWrapsAt32,
    Slip::NullIssuanceAccepted,
    Slip::NullIssuanceByAmount,
    Slip::NullIssuanceByKeys,
    Slip::ProofsSwapped,
    Slip::FlagTwoAllowed,
    Slip::EmptyWitnessesAccepted,
    Slip::EmptinessOfEach,
    Slip::EmptinessOfInputsOnly,
    Slip::EmptyItemsCountAsNone,
    Slip::FlagJudgedEarly,
    Slip::FlagJudgedBeforeLocktime,
    Slip::LimitOneShort,
    Slip::LengthCountsFollowers,
    Slip::FirstIndexOfScriptOnly,
    Slip::PositionBehindPrefix,
    Slip::IssuanceBehindNonce,
    Slip::RoomForOneMore,
    Slip::HighVoutAccepted,
    Slip::VoutBigEndian,
    Slip::FlagsNotPutBack,
    Slip::KeysAlwaysAfter33,
    Slip::AmountFromSource,
    Slip::BodyAtPrefix,
    Slip::AmountWrittenLittle,
    Slip::PrefixFromSource,
    Slip::CountBigEndian,
];

/// The judge's plain forms with each slip; and with none, to see that it is the slip that is found.
fn slips(options: &Options) -> bool {
    let count = options.count.unwrap_or(DEFAULT_COUNT);
    println!("seed {}, at most {count} inputs for each slip", options.seed);
    let sound = slipped(options.seed, 20_000, Slip::None);
    println!("no slip: {}", if sound.is_none() { "nothing found in 20,000 inputs" } else { "FOUND A DIFFERENCE" });
    let mut missed = 0;
    for slip in TRIED {
        let words = SLIPS.iter().find(|known| known.0 == slip).map_or("", |known| known.1);
        match slipped(options.seed, count, slip) {
            Some((inputs, what)) => println!("FOUND after {inputs} inputs: {words} ({what})"),
            None => {
                missed += 1;
                println!("NOT FOUND in {count} inputs: {words}");
            }
        }
    }
    println!("{} slips, {missed} not found", TRIED.len());
    missed == 0 && sound.is_none()
}

/// The inputs after which the slip shows, and how.
fn slipped(seed: u64, count: u64, slip: Slip) -> Option<(u64, String)> {
    let mut bench = Bench::default();
    let mut cases = Cases::new(seed);
    (0..count).find_map(|number| {
        let mut random = cases.make(number);
        let checked = check(&mut Slipped(slip), cases.input(), &mut random, &mut bench);
        checked.err().map(|what| (number + 1, what))
    })
}
