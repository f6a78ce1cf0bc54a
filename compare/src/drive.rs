//! The driver: makes cases, hands them to every form, and compares each with the plain one.

#[cfg(feature = "archive")]
use crate::archive::Archive;
use crate::damage::{self, Case, Sea, Writing};
use crate::forms::{Against, Feeds, Quick, Reads, Resume, Whole, Writes, ARCHIVE};
use crate::generate::{Made, Random};
use crate::log::{Ending, Reading};
use crate::paper::*;
use crate::plain::{self, Feeding};
use crate::slips::Slip;
use crate::tables::{Tables, GUARD};
use crate::tally::Tally;
use crate::whole;
use std::fmt::Write as _;

/// What the output holds before a write.
const BLANK: u8 = 0xc3;

// ---------------------------------------------------------------------------------------------------------
// Differences.

#[derive(Clone, Debug)]
pub struct Difference {
    pub subject: &'static str,
    pub call: String,
    pub what: String,
}

type Check = Result<(), Difference>;

fn differ(subject: &'static str, call: String, what: String) -> Check {
    Err(Difference { subject, call, what })
}

/// Who is compared, the memory that comparisons use again and again, and what they saw.
pub struct Bench {
    against: Against,
    paper: Tables,
    found: Tables,
    paper_output: Vec<u8>,
    found_output: Vec<u8>,
    pub tally: Tally,
}

impl Bench {
    pub fn new(against: Against) -> Bench {
        assert!(ARCHIVE || !against.archive(), "the library isn't compiled in");
        Bench {
            against,
            paper: Tables::default(),
            found: Tables::default(),
            paper_output: Vec::new(),
            found_output: Vec::new(),
            tally: Tally::default(),
        }
    }
}

// ---------------------------------------------------------------------------------------------------------
// Reading.

/// Every comparison of one reading case.
pub fn check_reading(case: &Case, reading: &mut Reading, bench: &mut Bench, slip: Slip) -> Check {
    plain::read_into(reading, &case.bytes, case.sizes, slip);
    bench.tally.inputs += 1;
    bench.tally.bytes += case.bytes.len() as u64;
    bench.tally.reading(reading);
    if bench.against.own() {
        check_at_once::<Whole>(&case.bytes, case.sizes, reading, bench, slip)?;
        check_feeding::<Resume>(case, reading, bench, slip)?;
    }
    #[cfg(feature = "archive")]
    if bench.against.archive() {
        check_at_once::<Archive>(&case.bytes, case.sizes, reading, bench, slip)?;
        check_feeding::<Archive>(case, reading, bench, slip)?;
    }
    if case.whims % 128 == 0 && case.bytes.len() < 600 {
        check_every_truncation(case, reading, bench, slip)?;
    }
    Ok(())
}

/// At once and strictly, against the reading of these bytes.
fn check_at_once<R: Reads>(bytes: &[u8], sizes: [usize; 3], reading: &Reading, bench: &mut Bench, slip: Slip) -> Check {
    for strict in [false, true] {
        bench.paper.prepare(sizes);
        bench.found.prepare(sizes);
        let paper = plain::read_at_once(reading, bytes.len(), &mut bench.paper.lent(), strict, slip);
        let found = R::read(bytes, &mut bench.found.lent(), strict);
        bench.tally.calls += 1;
        if paper.answer == 9 {
            bench.tally.number(9);
        }
        let call = || format!("read at once, strict {strict}, {} bytes", bytes.len());
        bench.compare(R::NAME, call, paper, found)?;
    }
    Ok(())
}

/// Each front part of the bytes, read by itself: the log of the whole must be the log of the part, cut off.
fn check_every_truncation(case: &Case, whole: &Reading, bench: &mut Bench, slip: Slip) -> Check {
    let mut part = Reading::empty();
    for length in 0..case.bytes.len() {
        let bytes = &case.bytes[..length];
        plain::read_into(&mut part, bytes, case.sizes, slip);
        bench.tally.truncations += 1;
        bench.tally.reading(&part);
        let ended = !matches!(whole.ending, Ending::More(..)) && whole.taken <= length;
        let log = whole.entries.iter().take_while(|entry| entry.at <= length);
        let same_end = if ended { part.ending == whole.ending } else { matches!(part.ending, Ending::More(..)) };
        if slip == Slip::None && !(same_end && log.eq(part.entries.iter())) {
            return differ("plain", format!("first {length} bytes"), "the part isn't read like the whole".into());
        }
        if bench.against.own() {
            check_at_once::<Whole>(bytes, case.sizes, &part, bench, slip)?;
        }
        #[cfg(feature = "archive")]
        if bench.against.archive() {
            check_at_once::<Archive>(bytes, case.sizes, &part, bench, slip)?;
        }
    }
    Ok(())
}

/// Feeds the pieces, with whatever else the caller's whims are, and compares after every call.
fn check_feeding<F: Feeds>(case: &Case, reading: &Reading, bench: &mut Bench, slip: Slip) -> Check {
    let mut random = Random::seeded(case.whims);
    let altered = random.once_in(16);
    bench.paper.prepare(case.sizes);
    bench.found.prepare(case.sizes);
    let model = Feeding::fresh(reading, &mut bench.paper.lent(), slip);
    let state = F::fresh(&mut bench.found.lent());
    bench.same_tables(F::NAME, || "fresh start".into())?;
    let mut talk = Talk::<F> { model, state, sizes: case.sizes, altered, ended: false, random, bench };
    let mut at = 0;
    let rest = case.bytes.len() - case.pieces.iter().sum::<usize>();
    let last = [rest];
    for &piece in case.pieces.iter().chain(&last) {
        talk.push(&case.bytes[at..at + piece], at)?;
        at += piece;
    }
    talk.end("finish")?;
    talk.end("finish again")?;
    talk.push(&case.bytes[..case.bytes.len().min(3)], at)?;
    talk.push(&[], at)?;
    talk.end("finish at last")
}

/// One conversation: the model and the form under test hear the same calls.
struct Talk<'a, 'b, F: Feeds> {
    model: Feeding<'b>,
    state: F::State,
    sizes: [usize; 3],
    /// The caller alters the tables between calls: then only answers are promised, and zeros after refusals.
    altered: bool,
    ended: bool,
    random: Random,
    bench: &'a mut Bench,
}

impl<F: Feeds> Talk<'_, '_, F> {
    fn push(&mut self, piece: &[u8], at: usize) -> Check {
        self.whims(piece)?;
        let paper = self.model.push(piece.len(), &mut self.bench.paper.lent());
        let (state, found) = F::push(self.state, piece, &mut self.bench.found.lent());
        if piece.is_empty() && found.answer == MORE && state != self.state {
            return differ(F::NAME, format!("empty piece at {at}"), "the state came back changed".into());
        }
        self.state = state;
        self.compare(|| format!("piece of {} bytes at {at}", piece.len()), paper, found)
    }

    fn end(&mut self, name: &str) -> Check {
        self.whims(&[])?;
        let paper = self.model.end(&mut self.bench.paper.lent());
        let (state, found) = F::end(self.state, &mut self.bench.found.lent());
        self.state = state;
        self.compare(|| name.into(), paper, found)
    }

    /// Before a call: now and then tables of other sizes, or numbers altered by the caller.
    fn whims(&mut self, piece: &[u8]) -> Check {
        if self.random.once_in(12) {
            self.misuse(piece)?;
        }
        // A refused reading zeroes its tables again whatever the caller did to them, a finished one leaves them.
        if self.altered || self.ended && self.random.once_in(2) {
            let mut same = self.random.clone();
            self.bench.paper.scribble(&mut same);
            self.bench.found.scribble(&mut self.random);
        }
        Ok(())
    }

    fn misuse(&mut self, piece: &[u8]) -> Check {
        let mut sizes = self.sizes;
        let table = self.random.below(3);
        let more = self.random.choose(&[1, WIDTHS[table]]);
        sizes[table] = if self.random.once_in(2) { sizes[table] + more } else { sizes[table].saturating_sub(more) };
        if sizes == self.sizes {
            return Ok(());
        }
        let (paper, state, found);
        if self.random.once_in(3) {
            paper = self.model.end(&mut self.bench.paper.lent_of(sizes));
            (state, found) = F::end(self.state, &mut self.bench.found.lent_of(sizes));
        } else {
            paper = self.model.push(piece.len(), &mut self.bench.paper.lent_of(sizes));
            (state, found) = F::push(self.state, piece, &mut self.bench.found.lent_of(sizes));
        }
        if found.answer == 10 && state != self.state {
            return differ(F::NAME, format!("tables of {sizes:?} numbers"), "10 came with another state".into());
        }
        self.state = state;
        self.bench.tally.number(paper.answer);
        self.compare(|| format!("tables of {sizes:?} numbers"), paper, found)
    }

    fn compare(&mut self, call: impl Fn() -> String, paper: Outcome, found: Outcome) -> Check {
        self.bench.tally.calls += 1;
        self.ended |= paper.answer <= 9;
        if !self.altered {
            return self.bench.compare(F::NAME, call, paper, found);
        }
        if paper != found {
            return differ(F::NAME, call() + " (tables altered)", outcomes(paper, found));
        }
        if found.is_refused_reading() && !self.bench.found.is_zero() {
            return differ(F::NAME, call() + " (tables altered)", "a refusal left a number".into());
        }
        Ok(())
    }
}

impl Bench {
    fn compare(&self, subject: &'static str, call: impl Fn() -> String, paper: Outcome, found: Outcome) -> Check {
        if paper != found {
            return differ(subject, call(), outcomes(paper, found));
        }
        self.same_tables(subject, call)
    }

    fn same_tables(&self, subject: &'static str, call: impl Fn() -> String) -> Check {
        match self.paper.difference(&self.found) {
            Some(what) => differ(subject, call(), what),
            None => Ok(()),
        }
    }
}

fn outcomes(paper: Outcome, found: Outcome) -> String {
    format!("\n  paper: {}\n  found: {}", shown(paper), shown(found))
}

fn shown(outcome: Outcome) -> String {
    let Outcome { answer, place, taken, head } = outcome;
    format!("answer {answer}, place {place}, taken {taken}, head {head:?}")
}

// ---------------------------------------------------------------------------------------------------------
// Writing.

/// Every comparison of one order to write.
pub fn check_writing(case: &Writing, bench: &mut Bench, slip: Slip) -> Check {
    bench.tally.writings += 1;
    if bench.against.own() {
        check_writer::<Quick>(case, bench, slip, true)?;
    }
    #[cfg(feature = "archive")]
    if bench.against.archive() {
        let first = !bench.against.own();
        check_writer::<Archive>(case, bench, slip, first)?;
    }
    Ok(())
}

/// One writer's answers to the order; the `first` writer's are counted.
fn check_writer<W: Writes>(case: &Writing, bench: &mut Bench, slip: Slip, first: bool) -> Check {
    check_written::<W>(case, bench, slip, first)?;
    for record in case.tables[OUTPUTS].chunks_exact(OUTPUT).take(3) {
        check_fee::<W>(record.try_into().expect("a whole record"), slip)?;
    }
    Ok(())
}

fn check_fee<W: Writes>(record: &[u32; OUTPUT], slip: Slip) -> Check {
    let (paper, found) = (plain::is_fee(record, slip), W::is_fee(record));
    if paper != found {
        return differ(W::NAME, "fee question".into(), format!("paper {paper}, found {found}"));
    }
    Ok(())
}

fn check_written<W: Writes>(case: &Writing, bench: &mut Bench, slip: Slip, first: bool) -> Check {
    let order = case.order();
    let (paper, found) = (plain::written_length(&order, slip), W::written_length(&order));
    if paper != found {
        return differ(W::NAME, "length alone".into(), format!("paper {paper:?}, found {found:?}"));
    }
    // A guard behind the output shows whether its length is kept.
    for output in [&mut bench.paper_output, &mut bench.found_output] {
        output.clear();
        output.resize(case.room + GUARD, BLANK);
    }
    let (paper, cause) = plain::write(&order, &mut bench.paper_output[..case.room], slip);
    let found = W::write(&order, &mut bench.found_output[..case.room]);
    if paper != found {
        return differ(W::NAME, "write".into(), format!("paper {paper:?}, found {found:?}"));
    }
    if bench.paper_output != bench.found_output {
        let pairs = bench.paper_output.iter().zip(&bench.found_output);
        let at = pairs.clone().position(|(one, two)| one != two).unwrap_or(0);
        let (one, two) = (bench.paper_output[at], bench.found_output[at]);
        return differ(W::NAME, "write".into(), format!("output byte {at}: paper {one:#04x}, found {two:#04x}"));
    }
    if first {
        bench.tally.writing(cause);
    }
    if paper.answer == FINISHED && slip == Slip::None && first {
        bench.tally.read_back += 1;
        return read_back(case, &bench.found_output[..found.length]);
    }
    Ok(())
}

/// What the writer accepts reads back as the same transaction, in all but positions.
fn read_back(case: &Writing, written: &[u8]) -> Check {
    let counts = [0, 1, 2].map(|table| case.head[2 + table] as usize);
    let sizes = [0, 1, 2].map(|table| counts[table] * WIDTHS[table]);
    let mut tables = Tables::default();
    tables.prepare(sizes);
    let outcome = whole::read(written, &mut tables.lent(), true);
    let wrong = |what: String| differ("plain", "reading back what was written".into(), what);
    if outcome.answer != FINISHED || outcome.head[..6] != case.head[..6] || outcome.head[6] as usize != written.len() {
        return wrong(shown(outcome));
    }
    let source = &case.source;
    for (table, positions) in POSITIONS.iter().enumerate() {
        for index in 0..sizes[table] {
            let (before, after) = (case.tables[table][index], tables.table(table)[index]);
            if !positions.contains(&(index % WIDTHS[table])) && before != after {
                return wrong(format!("table {table}, number {index}: written {before}, read {after}"));
            }
        }
        let pairs = case.tables[table].chunks_exact(WIDTHS[table]).zip(tables.table(table).chunks_exact(WIDTHS[table]));
        for (record, (before, after)) in pairs.enumerate() {
            let (before, after) = (bodies(table, before, source), bodies(table, after, written));
            if before != after {
                return wrong(format!("table {table}, record {record}: other bodies"));
            }
        }
    }
    Ok(())
}

/// The numbers that are positions.
const POSITIONS: [&[usize]; 3] = [&[0, 3, 6, 13, 15], &[1, 3, 7, 8, 10, 12], &[0]];

/// Each body that a record takes from the source.
fn bodies<'a>(table: usize, record: &[u32], source: &'a [u8]) -> Vec<&'a [u8]> {
    let part = |position: u32, length: usize| &source[position as usize..position as usize + length];
    let body = |number: usize| part(record[number], record[number + 1] as usize);
    let after_prefix = |number: usize| part(record[number] + 1, PART);
    match table {
        INPUTS => {
            let mut all = vec![part(record[0], PART), body(3), body(13), body(15)];
            if record[2] & ISSUANCE != 0 {
                let keys = record[6] + 64 + plain::value_width(record[7]).unwrap_or(0) as u32;
                all.push(part(record[6], 64));
                all.extend((record[7] > 1).then(|| part(record[6] + 65, PART)));
                all.extend((record[10] > 1).then(|| part(keys + 1, PART)));
            }
            all
        }
        OUTPUTS => {
            let mut all = vec![body(8), body(10), body(12)];
            all.extend((record[0] != 0).then(|| after_prefix(1)));
            all.extend((record[2] > 1).then(|| after_prefix(3)));
            all.extend((record[6] != 0).then(|| after_prefix(7)));
            all
        }
        _ => vec![body(0)],
    }
}

/// Written back over the same bytes with room enough, a finished reading gives the same bytes.
fn check_round_trip<W: Writes>(head: &Head, tables: &Tables, bytes: &[u8], output: &mut Vec<u8>) -> Check {
    let order = Order {
        head,
        inputs: tables.table(INPUTS),
        outputs: tables.table(OUTPUTS),
        items: tables.table(ITEMS),
        source: bytes,
    };
    let length = head[6] as usize;
    output.clear();
    output.resize(length, BLANK);
    let written = W::write(&order, output);
    if written != (Written { answer: 0, place: 0, length }) || output[..] != bytes[..length] {
        return differ(W::NAME, "written back over the same bytes".into(), format!("{written:?}"));
    }
    Ok(())
}

// ---------------------------------------------------------------------------------------------------------
// The run.

/// Makes the cases of a seed, one after the other, and checks them.
pub struct Run {
    seed: u64,
    slip: Slip,
    made: Made,
    case: Case,
    writing: Writing,
    sea: Sea,
    reading: Reading,
    pub bench: Bench,
}

/// The case in which a difference showed.
pub enum Found {
    Reading(Case),
    Writing(Writing),
}

impl Run {
    pub fn new(seed: u64, slip: Slip, against: Against) -> Run {
        Run {
            seed,
            slip,
            made: Made::default(),
            case: Case::default(),
            writing: Writing::default(),
            sea: Sea::default(),
            reading: Reading::empty(),
            bench: Bench::new(against),
        }
    }

    /// The case of this number. Each has its own seed, so that one can be run alone.
    pub fn step(&mut self, number: u64) -> Result<(), (Difference, Found)> {
        let mut random = Random::seeded(self.seed ^ number.wrapping_mul(0xd134_2543_de82_ef95));
        random.draw();
        self.made.again(&mut random);
        damage::reading_case(&mut self.case, &self.made, &mut self.sea, &mut random);
        if let Err(difference) = check_reading(&self.case, &mut self.reading, &mut self.bench, self.slip) {
            return Err((difference, Found::Reading(self.case.clone())));
        }
        let outcome = self.write(&mut random);
        damage::retire(&mut self.case, &mut self.sea);
        outcome
    }

    /// Of a finished reading, the tables go to the writer: as they are, and damaged.
    fn write(&mut self, random: &mut Random) -> Result<(), (Difference, Found)> {
        if !matches!(self.reading.ending, Ending::Finished(_)) {
            return Ok(());
        }
        // Long ones cost a thousand times more.
        if self.case.bytes.len() > 100_000 && !random.once_in(16) {
            return Ok(());
        }
        let mut tables = Tables::default();
        tables.prepare(self.case.sizes);
        let outcome = whole::read(&self.case.bytes, &mut tables.lent(), false);
        let head = outcome.head;
        if let Err(difference) = self.round_trip(&head, &tables) {
            return Err((difference, Found::Reading(self.case.clone())));
        }
        let bytes = &self.case.bytes;
        let lent = [tables.table(INPUTS), tables.table(OUTPUTS), tables.table(ITEMS)];
        damage::writing_case(&mut self.writing, head, lent, bytes, random);
        if bytes.len() < 100_000 && random.once_in(200) {
            self.writing.head = head;
            self.writing.source = bytes.clone();
            for table in 0..3 {
                self.writing.tables[table] = lent[table].to_vec();
            }
            damage::long_writing(&mut self.writing, head[6] as usize, random);
        }
        check_writing(&self.writing, &mut self.bench, self.slip)
            .map_err(|difference| (difference, Found::Writing(self.writing.clone())))
    }

    fn round_trip(&mut self, head: &Head, tables: &Tables) -> Check {
        let Bench { against, found_output, .. } = &mut self.bench;
        if against.own() {
            check_round_trip::<Quick>(head, tables, &self.case.bytes, found_output)?;
        }
        #[cfg(feature = "archive")]
        if against.archive() {
            check_round_trip::<Archive>(head, tables, &self.case.bytes, found_output)?;
        }
        Ok(())
    }
}

/// Hexadecimal, with long runs of zero bytes said by their number and the middle of what is too long left out.
pub fn hex(bytes: &[u8]) -> String {
    const SHOWN: usize = 3000;
    let mut text = String::new();
    let mut at = 0;
    while at < bytes.len() {
        let zeros = bytes[at..].iter().take_while(|&&byte| byte == 0).count();
        if zeros > 64 {
            let _ = write!(text, " (00 x {zeros}) ");
            at += zeros;
        } else if text.len() > 2 * SHOWN && bytes.len() - at > SHOWN {
            let _ = write!(text, " ({} bytes) ", bytes.len() - at - SHOWN);
            at = bytes.len() - SHOWN;
        } else {
            let _ = write!(text, "{:02x}", bytes[at]);
            at += 1;
        }
    }
    text
}
