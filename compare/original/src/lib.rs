//! The library held against the original's own text: crate `elements` 0.27.0, compiled from where it lies, over shims
//! for what it lacks.
//!
//! - [`original`]: the original's readers and writers, the new ones and the older ones, and what their refusals are.
//! - [`ours`]: the library, and in its place the judge's plain forms with a slip.
//! - [`domain`]: document 01's oracle domain, clause by clause.
//! - [`fields`]: every field of our tables beside the original's, and the original's transaction made from tables.
//! - [`cases`]: the judge's inputs, with pegin stacks that the original accepts.
//! - [`drive`]: one case compared. [`tally`]: what was seen.
//! - [`differences`]: each difference that docs/DIFFERENCES.md names, by an input.

pub mod cases;
pub mod differences;
pub mod domain;
pub mod drive;
pub mod fields;
pub mod original;
pub mod ours;
pub mod tally;
