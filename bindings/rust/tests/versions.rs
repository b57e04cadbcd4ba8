//! The Rattle functions, the C header, build.rs and the calls name one version of the interface and the same functions.

use std::fs;
use std::path::{Path, PathBuf};

const MARK: &str = "_else_run_rt_staticlib_exports";

fn path(name: &str) -> PathBuf {
    Path::new(env!("CARGO_MANIFEST_DIR")).join("../..").join(name)
}

fn text(name: &str) -> String {
    fs::read_to_string(path(name)).unwrap_or_else(|error| panic!("{name}: {error}"))
}

/// What stands before the mark, each time: a function's name, if there is one, and `v` with the version.
fn marked(text: &str) -> Vec<&str> {
    let part = |c: char| c.is_ascii_alphanumeric() || c == '_';
    text.match_indices(MARK).map(|(at, _)| text[..at].rsplit(|c| !part(c)).next().unwrap()).collect()
}

/// The version of all these names.
fn version(names: &[&str]) -> u32 {
    let versions: Vec<u32> =
        names.iter().map(|name| name.rsplit_once("_v").expect(name).1.parse().expect(name)).collect();
    assert!(versions.iter().all(|version| *version == versions[0]), "{names:?}");
    versions[0]
}

/// The functions that crates/exports has, and their version.
fn exported() -> (Vec<String>, u32) {
    let mut functions = vec![];
    for entry in fs::read_dir(path("crates/exports/src")).unwrap() {
        let source = fs::read_to_string(entry.unwrap().path()).unwrap();
        functions.extend(source.split("extern \"C\" fn ").skip(1).map(|rest| marked(rest)[0].to_string()));
    }
    let names: Vec<&str> = functions.iter().map(String::as_str).collect();
    let version = version(&names);
    let plain = names.iter().map(|name| name.rsplit_once("_v").unwrap().0.to_string()).collect();
    (plain, version)
}

#[test]
fn one_version() {
    let (functions, number) = exported();
    assert_eq!(functions.len(), 3);
    let (header, symbol) = (text("bindings/c/gelduvra.h"), text("bindings/rust/src/symbol.rs"));
    // In one place each.
    assert_eq!(marked(&header), [format!("_v{number}")]);
    assert_eq!(marked(&symbol), [format!("_v{number}")]);
    let (build, call) = (text("bindings/rust/build.rs"), text("bindings/rust/src/call.rs"));
    assert!(marked(&build).is_empty() && marked(&call).is_empty());
    assert!(build.contains("include!(\"src/symbol.rs\")"));
}

#[test]
fn every_function() {
    let (functions, _) = exported();
    let (header, call) = (text("bindings/c/gelduvra.h"), text("bindings/rust/src/call.rs"));
    for function in &functions {
        assert!(header.contains(&format!("#define {function} GELDUVRA_VERSIONED({function})\n")), "{function}");
        assert!(header.contains(&format!(" {function}(")), "{function}");
        assert!(call.contains(&format!("#[link_name = symbol!(\"{function}\")]\n")), "{function}");
    }
    assert_eq!(header.matches("#define gelduvra_").count(), functions.len());
    assert_eq!(call.matches("#[link_name").count(), functions.len());
}

/// A proof is named after its function, so it has to be raised too.
#[test]
fn proofs() {
    let (_, number) = exported();
    for module in fs::read_dir(path("crates/exports/proofs")).unwrap() {
        for proof in fs::read_dir(module.unwrap().path()).unwrap() {
            let folder = proof.unwrap().file_name().into_string().unwrap();
            assert_eq!(version(&marked(&folder)), number);
        }
    }
}
