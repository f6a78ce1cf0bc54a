//! Stands for `src/dynafed.rs`: nothing of it is named.
