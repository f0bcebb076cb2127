//! Links `liboctseq.a` of the prefix that `OCTSEQ_PREFIX` names, or else of `out/c` of the repository.
use std::{env, path::PathBuf};

const HOW: &str = "Run `bin/build-c` in the octseq repository, or set OCTSEQ_PREFIX to the full path of the PREFIX \
                   that it was run with.";

/// The folder that `bin/build-c` made.
fn prefix() -> PathBuf {
    match env::var_os("OCTSEQ_PREFIX").filter(|named| !named.is_empty()) {
        Some(named) => named.into(),
        None => PathBuf::from(env::var_os("CARGO_MANIFEST_DIR").unwrap_or_default()).join("../../out/c"),
    }
}

fn main() {
    println!("cargo::rerun-if-env-changed=OCTSEQ_PREFIX");
    let folder = prefix().join("lib");
    let library = folder.join("liboctseq.a");
    println!("cargo::rerun-if-changed={}", library.display());
    if !library.is_absolute() || !library.is_file() {
        println!("cargo::error={} isn't the full path of a file. {HOW}", library.display());
        return;
    }
    println!("cargo::rustc-link-search=native={}", folder.display());
    println!("cargo::rustc-link-lib=static=octseq");
}
