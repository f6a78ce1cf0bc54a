//! Crate `elements` 0.27.0, by its own text: see `build.rs`. It needs Rust 1.73, or an older one from 1.63 on with the
//! settings that `.ci/original` gives it.

#![allow(warnings)]

include!(concat!(env!("OUT_DIR"), "/tree/lib.rs"));
