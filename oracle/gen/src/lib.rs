//! Seeded generators: accepted jobs, damaged jobs, block lists, and what they covered.

mod accepted;
mod cover;
mod damaged;
mod limit;
mod rng;
mod stream;

pub use accepted::{Size, accepted, point_call};
pub use cover::{Cover, features};
pub use damaged::{damage_named, damaged, damaged_often, damaged_text, damages, text_damages};
pub use limit::even;
pub use rng::Rng;
pub use stream::Options;
