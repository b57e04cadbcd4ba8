//! Document 01's cases: the Rust's answers against the document's, in recorded/cases.

use std::fs;
use std::path::PathBuf;
use std::process::ExitCode;

use crate::{Wanted, answer_text};

/// The repository's folder of recorded data.
pub fn recorded() -> PathBuf {
    PathBuf::from(env!("CARGO_MANIFEST_DIR")).join("../../recorded")
}

/// Its copy, on which the program `replay` is run: the two are kept equal.
pub fn replayed() -> PathBuf {
    PathBuf::from(env!("CARGO_MANIFEST_DIR")).join("../../crates/replay/data")
}

pub fn cases() -> ExitCode {
    let folder = recorded().join("cases");
    let mut names: Vec<String> = fs::read_dir(&folder)
        .unwrap()
        .filter_map(|entry| entry.unwrap().file_name().into_string().ok())
        .filter_map(|name| name.strip_suffix(".sheet").map(str::to_string))
        .collect();
    names.sort();
    let mut differing = 0;
    for name in &names {
        let text = fs::read(folder.join(format!("{name}.sheet"))).unwrap();
        let all = answer_text(&text, Wanted::Tables);
        // What the document gives: the answer lines, or the links.
        let expected_of = |what: &str| fs::read_to_string(folder.join(format!("{name}.{what}"))).ok();
        let lines = |upper: bool| -> String {
            let kept = |line: &&str| match upper {
                true => line.starts_with(|c: char| c.is_ascii_uppercase()),
                false => line.starts_with('l'),
            };
            all.split_inclusive('\n').filter(kept).collect()
        };
        let agrees = expected_of("answer").is_none_or(|expected| expected == lines(true))
            && expected_of("links").is_none_or(|expected| expected == lines(false));
        println!("case {name}: {}", if agrees { "as in the document" } else { "DIFFERS" });
        differing += !agrees as u32;
    }
    println!("{} cases, {differing} differ", names.len());
    if differing == 0 { ExitCode::SUCCESS } else { ExitCode::FAILURE }
}
