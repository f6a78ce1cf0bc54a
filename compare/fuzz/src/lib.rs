//! Checks of the library on one fuzz input: the demands as invariants, and agreement with the judge.
//!
//! A broken check panics, which libFuzzer keeps as a find. Nothing here is random but for the input: the same input
//! gives the same calls.
//!
//! - [`plan`]: how a fuzz input is split: table sizes, cuts, mode, edits, transaction.
//! - [`reading`]: reading in pieces, cut otherwise and at once; the round trip; the twin that differs in what is not bearing.
//! - [`writing`]: tables with numbers changed, handed to the writer.
//! - [`forging`]: states with numbers changed, handed to the reader.
//! - [`mutate`]: mutations that know the layout. [`reached`]: feedback besides the compiler's.
//! - [`bearing`]: which bytes are bearing. [`range`]: docs/STATE.md's range test.

pub mod bearing;
pub mod forging;
pub mod mutate;
pub mod plan;
pub mod range;
pub mod reached;
pub mod reading;
pub mod writing;

use compare::slips::Slip;
use plan::{Mode, Plan};

/// Every check of one fuzz input. `slip` is `Slip::None` but when the fuzzer itself is tried.
pub fn check(input: &[u8], slip: Slip) {
    if let Some(plan) = Plan::of(input) {
        plan.with_bytes(|bytes| match plan.mode {
            Mode::Read => reading::check(&plan, bytes, slip),
            Mode::Write => writing::check(&plan, bytes, slip),
            Mode::Forge => forging::check(&plan, bytes),
            Mode::Twin => reading::check_twin(&plan, bytes, slip),
        });
    }
}
