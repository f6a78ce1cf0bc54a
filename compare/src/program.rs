//! The program of the port order: standard input through one buffer, and one line of the strict form's answer.

#[cfg(feature = "archive")]
use crate::archive::Archive;
use crate::damage::{self, Case, Sea};
use crate::drive::hex;
use crate::forms::{Against, Reads, Whole};
use crate::generate::{Made, Random};
use crate::paper::*;
use crate::plain;
use crate::slips::Slip;
use crate::tables::Tables;
use crate::terms::Terms;
use std::io::{Read, Write};
use std::process::{Command, Stdio};

/// Tables of 64 input, 64 output and 256 item records.
const SIZES: [usize; 3] = [64 * INPUT, 64 * OUTPUT, 256 * ITEM];
/// The program's buffer: inputs about as long are of interest.
const BUFFER: usize = 65_536;

/// Runs the program on case after case until one differs.
pub fn run(path: &str, terms: &Terms, against: Against) -> bool {
    println!("seed {}, from case {}; compared with plain: {path}, {}", terms.seed, terms.from, names(against));
    let mut made = Made::default();
    let mut case = Case::default();
    let mut sea = Sea::default();
    let mut seen = [0; 10];
    for number in terms.cases() {
        let mut random = Random::seeded(terms.seed ^ number.wrapping_mul(0xd134_2543_de82_ef95));
        made.again(&mut random);
        damage::reading_case(&mut case, &made, &mut sea, &mut random);
        if random.once_in(8) {
            about_the_buffer(&mut case.bytes, &mut random);
        }
        let paper = expected(&case.bytes);
        let found = match shown(path, &case.bytes, &mut random) {
            Ok(found) => found,
            Err(error) => {
                println!("the program can't be run: {error}");
                return false;
            }
        };
        let others = lines(&case.bytes, against);
        if let Some((form, found)) =
            others.iter().chain([&("the program", found)]).find(|(_, line)| *line != line_of(paper))
        {
            println!("case {number} of seed {}: {form} differs", terms.seed);
            println!("  paper: {:?}", line_of(paper));
            println!("  found: {found:?}");
            println!("  bytes ({}): {}", case.bytes.len(), hex(&case.bytes));
            return false;
        }
        seen[paper.answer] += 1;
        damage::retire(&mut case, &mut sea);
        if terms.time_is_up() {
            break;
        }
    }
    println!("answers 0 to 9: {seen:?}");
    let unseen = (0..seen.len()).filter(|&answer| seen[answer] == 0).map(|answer| answer.to_string());
    terms.passed(seen.iter().sum(), &unseen.collect::<Vec<String>>())
}

/// What the paper wants for these bytes, read strictly.
fn expected(bytes: &[u8]) -> Outcome {
    let mut tables = Tables::default();
    tables.prepare(SIZES);
    let reading = plain::read(bytes, SIZES, Slip::None);
    plain::read_at_once(&reading, bytes.len(), &mut tables.lent(), true, Slip::None)
}

fn line_of(outcome: Outcome) -> String {
    let [_, _, inputs, outputs, items, ..] = outcome.head;
    format!("{} {} {inputs} {outputs} {items}\n", outcome.answer, outcome.place)
}

/// The forms that read whole bytes.
fn names(against: Against) -> String {
    lines(&[], against).iter().map(|line| line.0).collect::<Vec<&str>>().join(", ")
}

/// Each form's line for these bytes.
fn lines(bytes: &[u8], against: Against) -> Vec<(&'static str, String)> {
    let mut lines = Vec::new();
    if against.own() {
        lines.push((Whole::NAME, line_by::<Whole>(bytes)));
    }
    #[cfg(feature = "archive")]
    if against.archive() {
        lines.push((<Archive as Reads>::NAME, line_by::<Archive>(bytes)));
    }
    lines
}

fn line_by<R: Reads>(bytes: &[u8]) -> String {
    let mut tables = Tables::default();
    tables.prepare(SIZES);
    line_of(R::read(bytes, &mut tables.lent(), true))
}

/// One input whose script makes the whole as long as the buffer, or nearly, or with bytes behind.
fn about_the_buffer(bytes: &mut Vec<u8>, random: &mut Random) {
    let whole = BUFFER + random.below(5) - 2;
    let script = whole - 42 - 3 - 9;
    bytes.clear();
    bytes.extend([2, 0, 0, 0, 0, 1]);
    bytes.extend([7; 36]);
    bytes[41] = 0;
    bytes.push(253);
    bytes.extend((script as u16).to_le_bytes());
    bytes.resize(whole, 0);
    let behind = random.choose(&[0, 0, 1, 2, BUFFER]);
    bytes.resize(whole + behind, 1);
}

/// What the program prints, its input arriving in pieces.
fn shown(path: &str, bytes: &[u8], random: &mut Random) -> std::io::Result<String> {
    let mut child = Command::new(path).stdin(Stdio::piped()).stdout(Stdio::piped()).spawn()?;
    let mut input = child.stdin.take().expect("a pipe");
    let piece = random.choose(&[1 << 20, 1 << 20, BUFFER, BUFFER - 1, 1000 + bytes.len() / 3]);
    for piece in bytes.chunks(piece) {
        // The program may stop reading once it knows its answer.
        if input.write_all(piece).is_err() {
            break;
        }
    }
    drop(input);
    let mut line = String::new();
    child.stdout.take().expect("a pipe").read_to_string(&mut line)?;
    child.wait()?;
    Ok(line)
}
