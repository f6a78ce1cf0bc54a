//! Stands for `src/pset.rs`: the file that is in our text and left out; `encode.rs` names its error.

use std::fmt;

#[derive(Debug)]
pub struct Error;

impl fmt::Display for Error {
    fn fmt(&self, f: &mut fmt::Formatter<'_>) -> fmt::Result {
        f.write_str("no PSET here")
    }
}
