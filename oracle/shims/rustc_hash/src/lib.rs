//! Stands in for the rustc-hash crate: the standard hasher. No call that the oracle makes reaches it.

pub type FxBuildHasher = std::hash::BuildHasherDefault<std::hash::DefaultHasher>;
