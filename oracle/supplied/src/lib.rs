//! The supplied Rust of regalloc3's split proposal, unchanged, and what it takes to run a job through it.
//!
//! The supplied files are included from copies that `build.rs` makes. What stands here beside them is a shim:
//! as much of the missing modules as the supplied files name. `job.rs` is the part that is used.

// The supplied files are taken as they are.
#![allow(dead_code, unused_variables, unused_imports, unused_macros, unexpected_cfgs, mismatched_lifetime_syntaxes)]
#![allow(clippy::all)]

extern crate alloc;

#[macro_use]
mod macros;

mod debug_utils;
mod entity;
mod internal;
mod job;
mod options;
mod reginfo;

include!(concat!(env!("OUT_DIR"), "/root.rs"));

pub use job::{Kept, Placed, Ran, run_job, split_point};
use options::{Options, SplitStrategy, Stats};
