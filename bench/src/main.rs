//! Times of the supplied Rust and of the static library, on the same jobs in one process.

mod sets;
mod sides;
mod tables;

use std::process::ExitCode;

use sets::{Set, even_sets, set_named, size_sets};
use sides::Times;

const USAGE: &str = "\
usage: bench/run [--rounds N] [--quick 1]
  nanoseconds a job for the supplied Rust and for the static library, best of N rounds (15), as Markdown
       bench/run --only rust|table|port|checks --set NAME [--rounds N]
  one side alone, for a profile; NAME is tiny, small, sheet, full, stream or a number of rows";

struct Options {
    rounds: u32,
    /// A tenth of the jobs.
    quick: bool,
    only: Option<String>,
    set: Option<String>,
}

impl Options {
    fn read(args: &[String]) -> Option<Self> {
        let mut options = Self { rounds: 15, quick: false, only: None, set: None };
        for pair in args.chunks(2) {
            let [name, value] = pair else {
                return None;
            };
            match name.as_str() {
                "--rounds" => options.rounds = value.parse().ok().filter(|n| *n > 0)?,
                "--quick" => options.quick = value == "1",
                "--only" => options.only = Some(value.clone()),
                "--set" => options.set = Some(value.clone()),
                _ => return None,
            }
        }
        Some(options)
    }
}

fn main() -> ExitCode {
    let args: Vec<String> = std::env::args().skip(1).collect();
    let Some(options) = Options::read(&args) else {
        eprintln!("{USAGE}");
        return ExitCode::from(2);
    };
    let cut = if options.quick { 10 } else { 1 };
    if let Some(side) = &options.only {
        let Some(set) = options.set.and_then(|name| set_named(&name, cut)) else {
            eprintln!("{USAGE}");
            return ExitCode::from(2);
        };
        return if sides::run_only(&set, side, options.rounds) { ExitCode::SUCCESS } else { ExitCode::from(2) };
    }
    let timed = |sets: Vec<Set>| -> Vec<(Set, Times)> {
        sets.into_iter()
            .map(|set| {
                let times = sides::times(&set, options.rounds);
                (set, times)
            })
            .collect()
    };
    tables::by_size(&timed(size_sets(cut)), options.rounds);
    tables::by_rows(&timed(even_sets(cut)));
    ExitCode::SUCCESS
}
