//! Finds the static library: in the folder that GELDUVRA_LIB_DIR names, else where the repository's `bin/archive` puts it. One of
//! another version than this crate's is not taken.

use std::env;
use std::fs;
use std::path::PathBuf;

include!("src/symbol.rs");

fn main() {
    println!("cargo::rerun-if-env-changed=GELDUVRA_LIB_DIR");
    let here = PathBuf::from(env::var_os("CARGO_MANIFEST_DIR").expect("cargo sets it"));
    let folder = match env::var_os("GELDUVRA_LIB_DIR") {
        Some(named) => PathBuf::from(named),
        None => here.join("../../crates/exports/out"),
    };
    let archive = folder.join("libexports.a");
    println!("cargo::rerun-if-changed={}", archive.display());
    let Ok(archive) = archive.canonicalize() else {
        println!(
            "cargo::error={} is missing: `bin/archive` in the repository's root makes it, or GELDUVRA_LIB_DIR names its folder",
            archive.display()
        );
        return;
    };
    // A symbol's name ends in a zero byte, so that version 2 is not found in version 20.
    let symbol = concat!(symbol!("gelduvra_propose_split"), "\0").as_bytes();
    let bytes = fs::read(&archive).unwrap_or_default();
    if !bytes.windows(symbol.len()).any(|window| window == symbol) {
        println!(
            "cargo::error={} is of another version than the crate gelduvra, which calls {}: `bin/archive` in the repository's root \
             makes it anew, or GELDUVRA_LIB_DIR names the folder of one that fits",
            archive.display(),
            symbol!("gelduvra_propose_split"),
        );
        return;
    }
    let folder = archive.parent().expect("the archive stands in a folder");
    println!("cargo::rustc-link-search=native={}", folder.display());
    println!("cargo::rustc-link-lib=static=exports");
}
