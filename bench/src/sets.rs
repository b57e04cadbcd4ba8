//! The jobs that are timed: fixed seeds, many different jobs a set.

use gen_jobs::{Options, Rng, Size, even};
use sheet::{Answer, Job};

/// Jobs of one size that are all answered with a proposal or none of kind 2, so that every table is filled and a region is tried.
pub struct Set {
    pub name: String,
    pub jobs: Vec<Job>,
    pub proposals: usize,
}

impl Set {
    fn of(name: &str, jobs: impl Iterator<Item = Job>, count: usize) -> Self {
        let mut set = Self { name: name.to_string(), jobs: vec![], proposals: 0 };
        for job in jobs {
            let ran = supplied::run_job(&job).expect("an accepted job runs");
            if ran.answer != Answer::None(1) {
                set.proposals += matches!(ran.answer, Answer::Proposed(..)) as usize;
                set.jobs.push(job);
            }
            if set.jobs.len() == count {
                break;
            }
        }
        set
    }

    /// Rows of all seven tables, on average.
    pub fn rows(&self) -> f64 {
        let rows: usize = self.jobs.iter().map(|job| job.sizes().iter().sum::<usize>()).sum();
        rows as f64 / self.jobs.len() as f64
    }
}

const SIZES: [(&str, Option<Size>, usize); 5] = [
    ("tiny", Some(Size::Tiny), 20_000),
    ("small", Some(Size::Small), 10_000),
    ("sheet", Some(Size::Sheet), 1_000),
    ("full", Some(Size::Full), 100),
    ("stream", None, 20_000),
];

const ROWS: [u32; 6] = [8, 32, 128, 512, 2048, 4096];

/// The four sizes, and the mixture of the oracle's streams. `cut` divides the number of jobs.
pub fn size_sets(cut: usize) -> Vec<Set> {
    SIZES.iter().map(|(name, ..)| set_named(name, cut).unwrap()).collect()
}

/// Jobs of one make, with 8 to 4,096 rows in each of the seven tables: how time grows.
pub fn even_sets(cut: usize) -> Vec<Set> {
    ROWS.iter().map(|rows| set_named(&rows.to_string(), cut).unwrap()).collect()
}

/// The set of this name: a size, or a number of rows.
pub fn set_named(name: &str, cut: usize) -> Option<Set> {
    if let Some((_, size, count)) = SIZES.iter().find(|(size, ..)| *size == name) {
        let options = Options { seed: 2026, from: 0, count: u64::MAX / 2, size: *size };
        let jobs = options.items().map(|(_, mut rng)| options.job(&mut rng));
        return Some(Set::of(name, jobs, count / cut));
    }
    let rows = ROWS.iter().find(|rows| rows.to_string() == name)?;
    let jobs = (0..).map(|item| even(&mut Rng::of(2027, item), *rows));
    Some(Set::of(name, jobs, (400_000 / *rows as usize).min(5_000) / cut))
}
