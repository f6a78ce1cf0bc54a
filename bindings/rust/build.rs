// Links libtakzulit.a from TAKZULIT_LIB, or from where `bin/library` writes it (for aarch64: `.ci/arm-archive`). A relative name counts
// from this package.
use std::{env, path::PathBuf};

fn main() {
    println!("cargo:rerun-if-env-changed=TAKZULIT_LIB");
    let here = PathBuf::from(env::var("CARGO_MANIFEST_DIR").expect("cargo sets it"));
    let usual = match env::var("CARGO_CFG_TARGET_ARCH").as_deref() {
        Ok("aarch64") => "../../target/aarch64",
        _ => "../../target/staticlib",
    };
    let library = here.join(env::var_os("TAKZULIT_LIB").unwrap_or_else(|| usual.into()));
    let archive = library.join("libtakzulit.a");
    if !archive.is_file() {
        println!("cargo:warning=there is no {}: `bin/library` writes it, TAKZULIT_LIB names its directory", archive.display());
    }
    println!("cargo:rerun-if-changed={}", archive.display());
    println!("cargo:rustc-link-search=native={}", library.display());
    println!("cargo:rustc-link-lib=static=takzulit");
}
