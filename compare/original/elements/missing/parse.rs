//! Stands for `src/parse.rs`: numbers out of text. No reading or writing of a transaction uses it.

use std::fmt;

#[derive(Clone, PartialEq, Eq, Debug)]
pub struct ParseIntError(std::num::ParseIntError);

impl fmt::Display for ParseIntError {
    fn fmt(&self, f: &mut fmt::Formatter<'_>) -> fmt::Result {
        self.0.fmt(f)
    }
}

impl std::error::Error for ParseIntError {}

pub fn int<S: AsRef<str>>(text: S) -> Result<u32, ParseIntError> {
    text.as_ref().parse().map_err(ParseIntError)
}

macro_rules! impl_parse_str_through_int {
    ($($any:tt)*) => {};
}
pub(crate) use impl_parse_str_through_int;
