//! The two sides, and their times.

use std::hint::black_box;
use std::time::Instant;

use gelduvra::{Answer, Error, Refusal, Scratch};
use library::{Columns, Lent, rooms_of};
use sheet::Job;
use supplied::{Kept, Placed};

use crate::sets::Set;

/// Nanoseconds a job, the best of all rounds.
#[derive(Clone, Copy)]
pub struct Times {
    /// The Rust: links prepared, and every call from `collect_uses` to `find_split_region`.
    pub rust: f64,
    /// The same where the block of an instruction is read from a table, which a compiler may have.
    pub rust_with_table: f64,
    /// The port: the whole call, checks, links, tables and growth.
    pub port: f64,
    /// The port on a job that the last check refuses: the checks alone.
    pub checks: f64,
}

/// The Rust's side of a set: the types are built beforehand, the allocator's vectors are kept from job to job.
struct Rust<'a> {
    placed: Vec<Placed<'a>>,
    kept: Kept,
}

impl<'a> Rust<'a> {
    fn of(set: &'a Set, place: fn(&'a Job) -> Placed<'a>) -> Self {
        Self { placed: set.jobs.iter().map(place).collect(), kept: Kept::new() }
    }

    fn round(&mut self) {
        for placed in &mut self.placed {
            black_box(placed.propose(&mut self.kept));
        }
    }
}

/// The port's side: the columns are built beforehand, the scratch is kept from job to job.
struct Port {
    columns: Vec<Columns>,
    scratch: Scratch,
}

impl Port {
    fn of(set: &Set) -> Self {
        Self { columns: set.jobs.iter().map(Columns::of).collect(), scratch: Scratch::new() }
    }

    fn round(&mut self) {
        for columns in &self.columns {
            let _ = black_box(self.scratch.propose_split(black_box(&columns.job())));
        }
    }
}

/// The port with links that are one row too few: refusal 12 is the last check, so that all others were made and nothing else was.
struct Checks<'a> {
    set: &'a Set,
    columns: Vec<Columns>,
    lent: Lent,
}

impl<'a> Checks<'a> {
    fn of(set: &'a Set) -> Self {
        Self { set, columns: set.jobs.iter().map(Columns::of).collect(), lent: Lent::new() }
    }

    /// The time of the calls.
    fn round(&mut self) -> f64 {
        let most = self.set.jobs.iter().map(rooms_of).fold([0; 4], |a, b| std::array::from_fn(|i| a[i].max(b[i])));
        self.lent.fill(most);
        let started = Instant::now();
        for (columns, job) in self.columns.iter().zip(&self.set.jobs) {
            let mut lent = self.lent.lend_links(job.blocks.len() - 1);
            let refused = black_box(gelduvra::propose_split(black_box(&columns.job()), &mut lent));
            assert_eq!(refused, Err(Error::Refused(Refusal { number: 12, place: 3 })));
        }
        started.elapsed().as_nanos() as f64
    }
}

/// Both sides say the same.
fn check<'a>(set: &'a Set, place: fn(&'a Job) -> Placed<'a>) {
    let (mut rust, mut port) = (Rust::of(set, place), Port::of(set));
    for (placed, columns) in rust.placed.iter_mut().zip(&port.columns) {
        let told = placed.propose(&mut rust.kept);
        let said = port.scratch.propose_split(&columns.job()).expect("an accepted job");
        match (told, said) {
            (Some(told), Answer::Proposal(said)) => {
                assert_eq!((told.left, told.right, told.live_insts), (said.left, said.right, said.live_insts));
                assert_eq!(told.use_weight, said.use_weight.to_bits());
                assert_eq!(told.interference_weight, said.interference_weight.to_bits());
                assert_eq!(told.split_cost, said.split_cost.to_bits());
            }
            (None, Answer::NoRegion) => {}
            (told, said) => panic!("the Rust {told:?}, the library {said:?}"),
        }
    }
}

/// Rounds of the four, one after the other, and the best of each.
pub fn times(set: &Set, rounds: u32) -> Times {
    check(set, Placed::of);
    check(set, Placed::with_table);
    let (mut rust, mut with_table) = (Rust::of(set, Placed::of), Rust::of(set, Placed::with_table));
    let (mut port, mut checks) = (Port::of(set), Checks::of(set));
    let mut best = [f64::INFINITY; 4];
    for _ in 0..rounds {
        let round = [timed(|| rust.round()), timed(|| with_table.round()), timed(|| port.round()), checks.round()];
        best = std::array::from_fn(|side| best[side].min(round[side]));
    }
    let [rust, rust_with_table, port, checks] = best.map(|time| time / set.jobs.len() as f64);
    Times { rust, rust_with_table, port, checks }
}

fn timed(round: impl FnOnce()) -> f64 {
    let started = Instant::now();
    round();
    started.elapsed().as_nanos() as f64
}

/// One side alone; false if there is no such side.
pub fn run_only(set: &Set, side: &str, rounds: u32) -> bool {
    match side {
        "rust" | "table" => {
            let mut rust = Rust::of(set, if side == "rust" { Placed::of } else { Placed::with_table });
            (0..rounds).for_each(|_| rust.round());
        }
        "port" => {
            let mut port = Port::of(set);
            (0..rounds).for_each(|_| port.round());
        }
        "checks" => {
            let mut checks = Checks::of(set);
            (0..rounds).for_each(|_| {
                checks.round();
            });
        }
        _ => return false,
    }
    true
}
