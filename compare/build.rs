//! Links libtakzulit.a, but only under the feature `archive`: without it the judge stands alone.

use std::env;
use std::path::PathBuf;

fn main() {
    println!("cargo:rerun-if-env-changed=TAKZULIT_LIB");
    if env::var_os("CARGO_FEATURE_ARCHIVE").is_none() {
        return;
    }
    let here = PathBuf::from(env::var("CARGO_MANIFEST_DIR").expect("cargo names the package's directory"));
    // The library for aarch64 is .ci/arm-archive's.
    let usual = match env::var("CARGO_CFG_TARGET_ARCH").as_deref() {
        Ok("aarch64") => "../target/aarch64",
        _ => "../target/staticlib",
    };
    let named = env::var("TAKZULIT_LIB").unwrap_or_else(|_| usual.to_string());
    // A relative name counts from this package, not from wherever cargo was called.
    let directory = here.join(named);
    println!("cargo:rerun-if-changed={}", directory.join("libtakzulit.a").display());
    println!("cargo:rustc-link-search=native={}", directory.display());
    println!("cargo:rustc-link-lib=static=takzulit");
}
