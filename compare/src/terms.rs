//! The terms of a run: its seed, how long it goes on, and when it is a pass.

use std::ops::Range;
use std::time::{Duration, Instant};

pub struct Terms {
    pub seed: u64,
    /// The first case.
    pub from: u64,
    /// At most so many cases.
    pub count: u64,
    pub time: Option<Duration>,
    /// Fewer cases are no pass.
    pub least: u64,
    pub started: Instant,
}

impl Terms {
    pub fn cases(&self) -> Range<u64> {
        self.from..self.from.saturating_add(self.count)
    }

    pub fn time_is_up(&self) -> bool {
        self.time.map_or(false, |time| self.started.elapsed() > time)
    }

    /// Whether a run without a difference is a pass: it had cases enough, and there is nothing that it never saw. Tells.
    pub fn passed(&self, cases: u64, unseen: &[String]) -> bool {
        println!("never seen: {}", if unseen.is_empty() { "none".into() } else { unseen.join(", ") });
        let seconds = self.started.elapsed().as_secs_f64();
        println!("{cases} cases, {seconds:.1} s, {:.0} a second; no difference", cases as f64 / seconds);
        if cases < self.least {
            println!("NO PASS: at least {} cases are wanted", self.least);
        }
        if !unseen.is_empty() {
            println!("NO PASS: not everything was seen");
        }
        cases >= self.least && unseen.is_empty()
    }
}
