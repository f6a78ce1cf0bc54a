//! Stands for `src/endian.rs`: nothing of it is named.
