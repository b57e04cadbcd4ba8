//! Stands in for the hashbrown crate: the standard map. No call that the oracle makes reaches it.

pub use std::collections::HashMap;
