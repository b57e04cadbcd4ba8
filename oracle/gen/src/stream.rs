//! What a stream of jobs is made of: a seed, a number of items, and their size.

use sheet::Job;

use crate::{Rng, Size, accepted};

pub struct Options {
    pub seed: u64,
    pub from: u64,
    pub count: u64,
    /// The size of every job; mixed as `Size::of_stream` does where there is none.
    pub size: Option<Size>,
}

impl Options {
    /// Reads `--seed N --from N --count N --size NAME`, the last of each counts.
    pub fn read(args: &[String]) -> Option<Self> {
        let mut options = Self { seed: 1, from: 0, count: 1000, size: None };
        for pair in args.chunks(2) {
            let [name, value] = pair else {
                return None;
            };
            match name.as_str() {
                "--seed" => options.seed = value.parse().ok()?,
                "--from" => options.from = value.parse().ok()?,
                "--count" => options.count = value.parse().ok()?,
                "--size" => {
                    options.size = match value.as_str() {
                        "tiny" => Some(Size::Tiny),
                        "small" => Some(Size::Small),
                        "sheet" => Some(Size::Sheet),
                        "full" => Some(Size::Full),
                        "limit" => Some(Size::Limit),
                        "stream" => None,
                        _ => return None,
                    }
                }
                _ => return None,
            }
        }
        Some(options)
    }

    /// The stream's items, each with its own random numbers.
    pub fn items(&self) -> impl Iterator<Item = (u64, Rng)> + use<> {
        let seed = self.seed;
        (self.from..self.from + self.count).map(move |item| (item, Rng::of(seed, item)))
    }

    pub fn job(&self, rng: &mut Rng) -> Job {
        let size = self.size.unwrap_or_else(|| Size::of_stream(rng));
        accepted(rng, size)
    }
}
