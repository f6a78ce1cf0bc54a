//! Lays the original's tree: its own files from where they lie, and ours of `missing/` where it has one that didn't
//! come with the request.
//!
//! The text lies in the directory that ELEMENTS_TEXT names, else in `../shared/docs/src` beside the project. Fifteen
//! files are taken. Fourteen are linked, not copied, and compiled whole. Of `lib.rs` the lines 29 to 120, its last, are
//! taken: before them stand a comment and the crate's lint settings, and an included file may have no settings for its
//! crate. `pset/mod.rs` is left out: it needs eight files that aren't there, and reading and writing don't use it.

use std::path::{Path, PathBuf};
use std::{env, fs, io};

/// The files of the text that are compiled whole.
const WHOLE: [&str; 14] = [
    "encode.rs",
    "error.rs",
    "issuance.rs",
    "locktime.rs",
    "script.rs",
    "confidential/asset.rs",
    "confidential/mod.rs",
    "confidential/nonce.rs",
    "confidential/value.rs",
    "transaction/decoders.rs",
    "transaction/encoders.rs",
    "transaction/mod.rs",
    "transaction/pegin_witness.rs",
    "transaction/witness.rs",
];

/// The line of `lib.rs` from which on it is taken, and that line's words.
const ROOT_FROM: usize = 29;
const ROOT_BEGINS: &str = "/// Re-export of bitcoin crate";

fn main() {
    if let Err(complaint) = lay() {
        eprintln!("{complaint}");
        std::process::exit(1);
    }
}

fn lay() -> Result<(), String> {
    println!("cargo:rerun-if-env-changed=ELEMENTS_TEXT");
    let here = PathBuf::from(env::var("CARGO_MANIFEST_DIR").map_err(|error| error.to_string())?);
    let text =
        here.join(env::var("ELEMENTS_TEXT").unwrap_or_else(|_| "../../../../shared/docs/src".into())).join("src");
    let tree = PathBuf::from(env::var("OUT_DIR").map_err(|error| error.to_string())?).join("tree");
    let missing = here.join("missing");
    let laid = || -> io::Result<()> {
        if tree.exists() {
            fs::remove_dir_all(&tree)?;
        }
        for folder in ["confidential", "transaction"] {
            fs::create_dir_all(tree.join(folder))?;
        }
        link_all(&missing, &tree)?;
        link_all(&missing.join("confidential"), &tree.join("confidential"))?;
        for file in WHOLE {
            link(&text.join(file), &tree.join(file))?;
        }
        root(&text.join("lib.rs"), &tree.join("lib.rs"))
    };
    laid().map_err(|error| format!("the original's text isn't in {}, or can't be laid: {error}", text.display()))
}

fn link_all(from: &Path, to: &Path) -> io::Result<()> {
    println!("cargo:rerun-if-changed={}", from.display());
    for file in fs::read_dir(from)? {
        let path = file?.path();
        if let (true, Some(name)) = (path.is_file(), path.file_name()) {
            link(&path, &to.join(name))?;
        }
    }
    Ok(())
}

fn link(from: &Path, to: &Path) -> io::Result<()> {
    println!("cargo:rerun-if-changed={}", from.display());
    std::os::unix::fs::symlink(fs::canonicalize(from)?, to)
}

/// The lines of `lib.rs` from `ROOT_FROM` on, as they stand.
fn root(from: &Path, to: &Path) -> io::Result<()> {
    println!("cargo:rerun-if-changed={}", from.display());
    let text = fs::read_to_string(from)?;
    let at: usize = text.split_inclusive('\n').take(ROOT_FROM - 1).map(str::len).sum();
    if !text[at..].starts_with(ROOT_BEGINS) {
        return Err(io::Error::new(
            io::ErrorKind::InvalidData,
            "lib.rs doesn't begin its items where this version does",
        ));
    }
    fs::write(to, &text[at..])
}
