//! Forged states, handed to the library: random numbers, and true states with one number changed.
//!
//! What a forged state does isn't the paper's matter, but this is: it is refused with 11, with state and tables
//! unchanged and nothing taken; or the call keeps to the lengths of what it was lent, leaves zeros after
//! refusals 1 to 9, shows head numbers only when finished, and returns a state that isn't refused with 11.

use crate::archive::{Archive, State, STATE};
use crate::damage::{self, Case, Sea};
use crate::drive::hex;
use crate::forms::Feeds;
use crate::generate::{Made, Random};
use crate::paper::*;
use crate::tables::Tables;
use crate::terms::Terms;
use crate::watch;
use std::collections::BTreeMap;

/// What the library did wrong, in words.
type Wrong = Option<&'static str>;

/// The answers that feeding and finishing can give; 9 is the strict form's.
const ANSWERS: [usize; 12] = [FINISHED, 1, 2, 3, 4, 5, 6, 7, 8, 10, 11, MORE];

/// How often each answer was seen.
type Counts = BTreeMap<usize, u64>;

/// Forges until the count or the time is used up, or the library does wrong.
pub fn run(terms: &Terms) -> bool {
    println!("seed {}, from case {}; forged states handed to: {}", terms.seed, terms.from, <Archive as Feeds>::NAME);
    watch::start(terms.seed);
    let mut counts = Counts::default();
    let mut workshop = Workshop::default();
    let mut cases = 0;
    for number in terms.cases() {
        watch::case(number);
        if let Some(wrong) = workshop.step(terms.seed, number, &mut counts) {
            println!("case {number} of seed {}: WRONG: {wrong}", terms.seed);
            workshop.print();
            return false;
        }
        cases += 1;
        if number % 256 == 0 && terms.time_is_up() {
            break;
        }
    }
    let seen: Vec<String> = counts.iter().map(|(answer, count)| format!("{}: {count}", named(*answer))).collect();
    println!("{} forged states; answers: {}", counts.values().sum::<u64>(), seen.join(", "));
    let unseen = ANSWERS.iter().filter(|answer| !counts.contains_key(answer)).map(|&answer| named(answer));
    terms.passed(cases, &unseen.collect::<Vec<String>>())
}

fn named(answer: usize) -> String {
    match answer {
        FINISHED => "finished".into(),
        MORE => "more wanted".into(),
        _ => answer.to_string(),
    }
}

#[derive(Default)]
struct Workshop {
    made: Made,
    case: Case,
    sea: Sea,
    tables: Tables,
    before: Tables,
    state: State,
    piece: Vec<u8>,
}

impl Workshop {
    fn step(&mut self, seed: u64, number: u64, counts: &mut Counts) -> Wrong {
        let mut random = Random::seeded(seed ^ number.wrapping_mul(0xd134_2543_de82_ef95));
        self.made.again(&mut random);
        damage::reading_case(&mut self.case, &self.made, &mut self.sea, &mut random);
        self.tables.prepare(self.case.sizes);
        let true_state = Archive::fresh(&mut self.tables.lent());
        let at = random.below(self.case.bytes.len().min(4000) + 1);
        let (true_state, _) = Archive::push(true_state, &self.case.bytes[..at], &mut self.tables.lent());
        let rest = (at + random.below(80)).min(self.case.bytes.len());
        self.piece.clear();
        self.piece.extend_from_slice(&self.case.bytes[at..rest]);
        damage::retire(&mut self.case, &mut self.sea);
        for _ in 0..8 {
            self.state = forged(true_state, self.case.sizes, &mut random);
            let wrong = self.hand_in(random.once_in(4), counts);
            if wrong.is_some() {
                return wrong;
            }
            let wrong = self.hand_in_with_other_sizes(&mut random);
            if wrong.is_some() {
                return wrong;
            }
        }
        None
    }

    /// One call with the forged state, and one more with whatever state it returned.
    fn hand_in(&mut self, ending: bool, counts: &mut Counts) -> Wrong {
        self.before.copy(&self.tables);
        let call = |state: State, piece: &[u8], tables: &mut Tables| match ending {
            true => Archive::end(state, &mut tables.lent()),
            false => Archive::push(state, piece, &mut tables.lent()),
        };
        let (returned, outcome) = call(self.state, &self.piece, &mut self.tables);
        if !matches!(outcome.answer, FINISHED | 1..=11 | MORE) {
            return Some("no such answer");
        }
        *counts.entry(outcome.answer).or_insert(0) += 1;
        let given = if ending { 0 } else { self.piece.len() };
        if outcome.taken > given {
            return Some("more taken than given");
        }
        if !self.tables.guards_stand() {
            return Some("a number outside the tables was touched");
        }
        if outcome.answer != FINISHED && outcome.head != [0; 7] {
            return Some("head numbers show without a finished reading");
        }
        if matches!(outcome.answer, FINISHED | MORE | 10 | 11) && outcome.place != 0 {
            return Some("a place where there is none");
        }
        if outcome.answer == MORE && (ending || outcome.taken != given) {
            return Some("more wanted, but the piece isn't taken entire");
        }
        if matches!(outcome.answer, 10 | 11) {
            let unchanged = outcome.taken == 0 && returned == self.state && self.tables.equal(&self.before);
            return (!unchanged).then_some("10 or 11 changed something");
        }
        if outcome.is_refused_reading() && !self.tables.is_zero() {
            return Some("a refusal left a number in the tables");
        }
        let (_, again) = Archive::push(returned, &[], &mut self.tables.lent());
        if again.answer == 11 {
            return Some("11 for a state that a call with another answer returned");
        }
        if outcome.answer != MORE && (again != Outcome { taken: 0, ..outcome }) {
            return Some("an ended reading doesn't repeat its answer");
        }
        None
    }

    /// 11 is a matter of the state alone and comes before 10; and at most one choice of sizes isn't 10.
    fn hand_in_with_other_sizes(&mut self, random: &mut Random) -> Wrong {
        let mut sizes = self.case.sizes;
        let table = random.below(3);
        sizes[table] += 1 + random.below(20);
        self.before.copy(&self.tables);
        let (returned, other) = Archive::push(self.state, &[], &mut self.tables.lent_of(sizes));
        if matches!(other.answer, 10 | 11) && (returned != self.state || !self.tables.equal(&self.before)) {
            return Some("10 or 11 changed something");
        }
        self.tables.prepare(self.case.sizes);
        let (_, own) = Archive::push(self.state, &[], &mut self.tables.lent());
        if (own.answer == 11) != (other.answer == 11) {
            return Some("11 depends on the tables' sizes");
        }
        if own.answer != 11 && own.answer != 10 && other.answer != 10 {
            return Some("no 10 for either of two sizes");
        }
        None
    }

    fn print(&self) {
        println!("  state {:?}", self.state);
        println!("  sizes {:?}", self.case.sizes);
        println!("  piece {}", hex(&self.piece));
    }
}

fn forged(true_state: State, sizes: [usize; 3], random: &mut Random) -> State {
    if random.once_in(6) {
        return std::array::from_fn(|_| some_number(0, sizes, random));
    }
    let mut state = true_state;
    // Mostly one number; now and then two, which may fit each other.
    for _ in 0..random.choose(&[1, 1, 1, 2]) {
        let at = random.below(STATE);
        state[at] = some_number(state[at], sizes, random);
    }
    state
}

fn some_number(old: usize, sizes: [usize; 3], random: &mut Random) -> usize {
    let any = random.draw() as usize;
    let size = random.choose(&sizes);
    random.choose(&[
        old.wrapping_add(1),
        old.wrapping_sub(1),
        old ^ 1 << (any % 64),
        old + any % 16,
        0,
        1,
        2,
        any % 32,
        any % 300,
        any % 70_000,
        any % (LIMIT + 2),
        LIMIT,
        LIMIT + 1,
        size,
        size + 1,
        u32::MAX as usize,
        u32::MAX as usize + 1,
        usize::MAX,
        usize::MAX - any % 64,
        any,
    ])
}
