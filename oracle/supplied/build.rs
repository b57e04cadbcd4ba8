//! Copies the supplied Rust into OUT_DIR, each file checked by its SHA-256, and declares its modules.
//!
//! A copy is the file byte for byte. Three copies get an accessor appended, from `accessors/`.

use std::path::Path;
use std::process::Command;
use std::{env, fs};

/// Where a module is declared, its file, and its accessor.
const MODULES: [(&str, &str, &str); 12] = [
    ("root", "src/function.rs", ""),
    ("entity", "src/entity/packed_option.rs", ""),
    ("entity", "src/entity/primary_map.rs", ""),
    ("entity", "src/entity/secondary_map.rs", ""),
    ("internal", "src/internal/hints.rs", ""),
    ("internal", "src/internal/live_range.rs", ""),
    ("internal", "src/internal/reg_matrix.rs", "reg_matrix.rs"),
    ("internal", "src/internal/split_placement.rs", ""),
    ("internal", "src/internal/uses.rs", ""),
    ("internal", "src/internal/virt_regs/mod.rs", "virt_regs.rs"),
    ("allocator", "src/internal/allocator/queue.rs", ""),
    ("allocator", "src/internal/allocator/split.rs", "split.rs"),
];

/// Declared by `virt_regs/mod.rs` itself.
const BUILDER: &str = "src/internal/virt_regs/builder.rs";

fn main() {
    let here = env::var("CARGO_MANIFEST_DIR").unwrap();
    let here = Path::new(&here);
    let supplied = here.join("../../../shared/docs/src");
    let sums = here.join("../SHA256SUMS").canonicalize().unwrap();
    let out = env::var("OUT_DIR").unwrap();
    let out = Path::new(&out);
    println!("cargo::rerun-if-changed=accessors");
    println!("cargo::rerun-if-changed={}", sums.display());
    println!("cargo::rerun-if-changed={}", supplied.display());

    if !supplied.join("src").is_dir() {
        eprintln!("../shared/docs/src is missing: the supplied Rust can't be built");
        std::process::exit(2);
    }
    let checked = Command::new("sha256sum")
        .args(["--check", "--strict", "--quiet"])
        .arg(&sums)
        .current_dir(&supplied)
        .status()
        .expect("sha256sum must be there");
    if !checked.success() {
        eprintln!("a supplied file is not the one that oracle/SHA256SUMS names");
        std::process::exit(2);
    }

    for list in ["root", "entity", "internal", "allocator"] {
        let mut declared = String::new();
        for (_, file, accessor) in MODULES.iter().filter(|m| m.0 == list) {
            copy(&supplied, out, file, &here.join("accessors"), accessor);
            let path = file.strip_suffix("/mod.rs").or(file.strip_suffix(".rs")).unwrap();
            let name = path.rsplit('/').next().unwrap();
            let copy = out.join(file);
            declared += &format!("#[path = {:?}]\npub mod {name};\n", copy.to_str().unwrap());
        }
        fs::write(out.join(format!("{list}.rs")), declared).unwrap();
    }
    copy(&supplied, out, BUILDER, here, "");
}

fn copy(supplied: &Path, out: &Path, file: &str, accessors: &Path, accessor: &str) {
    let mut text = fs::read(supplied.join(file)).unwrap();
    if !accessor.is_empty() {
        text.extend(fs::read(accessors.join(accessor)).unwrap());
    }
    let to = out.join(file);
    fs::create_dir_all(to.parent().unwrap()).unwrap();
    fs::write(to, text).unwrap();
}
