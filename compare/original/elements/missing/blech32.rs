//! Stands for `src/blech32.rs`: nothing of it is named.
