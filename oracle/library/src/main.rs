//! The supplied Rust and the static library side by side: streams of jobs, damaged jobs and split points, bit for bit.

mod compare;
mod summary;

use std::process::ExitCode;

use compare::Comparison;
use gen_jobs::{Options, Rng};

const USAGE: &str = "\
usage: oracle/run library [--seed N] [--count N] [--from N] [--size tiny|small|sheet|full|limit|stream]
  accepted jobs, the supplied Rust against the static library; every fourth item also a damaged job and a split point";

fn main() -> ExitCode {
    let args: Vec<String> = std::env::args().skip(1).collect();
    let Some(options) = Options::read(&args) else {
        eprintln!("{USAGE}");
        return ExitCode::from(2);
    };
    let mut comparison = Comparison::new(options.seed);
    for (item, mut rng) in options.items() {
        comparison.job(item, &options.job(&mut rng));
        if item % 4 == 0 {
            comparison.damaged(item, &gen_jobs::damaged_often(&mut Rng::of(options.seed ^ 0xda3a, item)));
            let (blocks, after, before, early) = gen_jobs::point_call(&mut Rng::of(options.seed ^ 0x9019, item));
            comparison.point(item, &blocks, after, before, early);
            // And one that may be refused.
            let mut rng = Rng::of(options.seed ^ 0x13, item);
            let [after, before] = [0, 0].map(|_: u32| rng.below(before + 3));
            comparison.point(item, &blocks, after, before, early);
        }
    }
    comparison.summary().print(options.seed);
    if comparison.summary().agrees() { ExitCode::SUCCESS } else { ExitCode::FAILURE }
}
