//! Links libFuzzer into the target alone. `run` says where it lies; without it the other programs build all the same.

use std::env;

fn main() {
    println!("cargo:rerun-if-env-changed=FUZZER_LIB");
    if let Ok(library) = env::var("FUZZER_LIB") {
        println!("cargo:rustc-link-arg-bin=target={library}");
        println!("cargo:rustc-link-arg-bin=target=-lstdc++");
    }
}
