//! An independent judge of the transaction codec, written from document 01, the demands and the list of readings.
//!
//! - [`paper`]: the constants of document 01 and the shapes every form shares.
//! - [`plain`]: the clear reader and writer. They are the judge. [`log`]: what the reader yields.
//! - [`whole`], [`resume`], [`writer`]: fast forms of the same paper, judged against it. [`forms`]: what can be judged.
//! - `archive`, `forge`: the library under test, and forged states handed to it (feature `archive`).
//! - [`generate`], [`damage`]: where the inputs come from. [`tables`]: tables with guards about them.
//! - [`drive`]: the comparisons. [`shrink`]: makes a difference small. [`tally`]: what was seen. [`terms`]: how long a
//!   run goes on, and when it is a pass.
//! - [`clock`]: how long each form takes. [`realistic`], `speed`: how fast the library is beside them, on transactions such
//!   as a chain carries (`speed`: feature `archive`).
//! - [`program`]: judges the program that reads standard input.
//! - `watch`, `fence`: tell the case if the library crashes, and make it crash if it reads behind its bytes (`archive`).
//! - [`slips`]: deliberate mistakes, each of which the driver has to find.

#[cfg(feature = "archive")]
pub mod archive;
pub mod clock;
pub mod damage;
pub mod drive;
#[cfg(feature = "archive")]
pub mod fence;
#[cfg(feature = "archive")]
pub mod forge;
pub mod forms;
pub mod generate;
pub mod log;
pub mod paper;
pub mod plain;
pub mod program;
pub mod realistic;
pub mod resume;
pub mod shrink;
pub mod slips;
#[cfg(feature = "archive")]
pub mod speed;
pub mod tables;
pub mod tally;
pub mod terms;
#[cfg(feature = "archive")]
pub mod watch;
pub mod whole;
pub mod writer;
