//! The split proposal of the register allocator regalloc3, proved in Rattle, for programs in Rust.
//!
//! When a live range fits into no register whole, it is split. For one physical register the proposal says between which two
//! instructions the live range may hold it, what that part weighs, and the heaviest weight that it would evict. This crate calls the
//! proved code through its static library and adds nothing to the answer: it lends columns, reads words, and gives them names.
//!
//! A [`Job`] is a set of columns, one slice for each field of a table. [`Scratch`] keeps the work tables between jobs, so that a
//! stream of jobs allocates nothing once they are large enough.
//!
//! ```
//! use gelduvra::{Answer, Blocks, Job, Parameters, Scratch, Segments, Uses, use_kind};
//!
//! // One block of four instructions; a value defined at instruction 0 and used at instruction 3.
//! let job = Job {
//!     parameters: Parameters { units: 1, ..Parameters::default() },
//!     blocks: Blocks { freq: &[1.0], first: &[0], end: &[4] },
//!     codes: &[0],
//!     segments: Segments {
//!         start: &[2],
//!         end: &[14],
//!         value: &[0],
//!         first_use: &[0],
//!         end_use: &[2],
//!         flags: &[0],
//!     },
//!     uses: Uses {
//!         position: &[0, 3],
//!         kind: &[use_kind::CLASS_DEF, use_kind::CLASS_USE],
//!         cost: &[1.0f32.to_bits(); 2],
//!     },
//!     ..Job::default()
//! };
//!
//! let mut scratch = Scratch::new();
//! let Answer::Proposal(p) = scratch.propose_split(&job)? else { panic!("no proposal") };
//! // Nothing is in the way: the region has no bound on either side.
//! assert_eq!((p.left, p.right), (None, None));
//! assert_eq!((p.use_weight, p.live_insts), (2.0, 4));
//! assert_eq!((p.interference_weight, p.split_cost), (0.0, 0.0));
//! // The tables that were filled can be read until the next job.
//! assert_eq!(scratch.uses().inst, [0, 3]);
//! # Ok::<(), gelduvra::Error>(())
//! ```
//!
//! What is refused, and why, is a [`Refusal`]; nothing panics, whatever the columns hold:
//!
//! ```
//! # use gelduvra::{Error, Job, Parameters, Refusal, Scratch};
//! let job = Job { parameters: Parameters { k: 65_537, ..Parameters::default() }, ..Job::default() };
//! let error = Scratch::new().propose_split(&job).unwrap_err();
//! assert_eq!(error, Error::Refused(Refusal { number: 1, place: 0 }));
//! assert_eq!(
//!     error.to_string(),
//!     "refusal 1, the parameters: the adjustment k is above 65536, or a scale is negative, above 65536.0 or not a number"
//! );
//! ```
//!
//! # What is proved, and what is not
//!
//! Behind the call the answer and every lent column are proved equal to a definition, for all inputs. Not proved are the compilers'
//! work and this crate; its one unsafe module, `call`, only passes slices on as pointer and length.
//!
//! # Fields
//!
//! Positions count instructions from 0. A point is 4 × instruction + slot; the slots are Boundary 0, Early 1 and Normal 2. Weights and
//! frequencies have no sign: minus zero is refused like any other negative number. A table has at most [`MOST_ITEMS`] rows.

#![deny(missing_docs)]
#![deny(unsafe_op_in_unsafe_fn)]

#[cfg(not(target_arch = "x86_64"))]
compile_error!("the static library of the Rattle kit links into x86-64 programs alone");

#[macro_use]
mod symbol;

mod answer;
mod call;
mod error;
mod job;
mod work;

pub use answer::{Answer, Proposed, Rows, SplitProposal};
pub use error::{Error, LengthMismatch, Refusal, Table};
pub use job::{Blocks, FixedUses, Job, Parameters, Reservations, Segments, Uses};
pub use work::{GapSegments, Gaps, Links, Scratch, UseTable, WorkTables};

/// What stands for an absent link, and for a reservation without a fixed use.
pub const ABSENT: u32 = u32::MAX;

/// The most items of any input table.
pub const MOST_ITEMS: usize = 4096;

/// Rematerialisation codes of values, the column [`Job::codes`].
pub mod remat_code {
    /// The value can't be rematerialised.
    pub const NONE: u32 = 0;
    /// Directly, and cheaper than a move.
    pub const CHEAPER_THAN_MOVE: u32 = 1;
    /// Directly, and cheaper than a load.
    pub const CHEAPER_THAN_LOAD: u32 = 2;
    /// Indirectly.
    pub const INDIRECT: u32 = 3;
}

/// Flags of segments, added up in the column [`Segments::flags`].
pub mod segment_flag {
    /// The value is live into the segment.
    pub const LIVE_IN: u32 = 1;
    /// The value is live out of the segment.
    pub const LIVE_OUT: u32 = 2;
    /// The segment has a hint for a fixed register.
    pub const FIXED_HINT: u32 = 4;
    /// The segment begins with a def in a fixed register.
    pub const FIXED_DEF: u32 = 8;
}

/// Kinds of uses, the column [`Uses::kind`]. Which cost field belongs to a kind is said at [`Uses::cost`].
pub mod use_kind {
    /// A def in a fixed register.
    pub const FIXED_DEF: u32 = 0;
    /// A use in a fixed register.
    pub const FIXED_USE: u32 = 1;
    /// A use tied to a def.
    pub const TIED_USE: u32 = 2;
    /// A place where constraints conflict.
    pub const CONSTRAINT_CONFLICT: u32 = 3;
    /// A use in any register of a class.
    pub const CLASS_USE: u32 = 4;
    /// A def in any register of a class.
    pub const CLASS_DEF: u32 = 5;
    /// A use in a group of registers of a class.
    pub const GROUP_CLASS_USE: u32 = 6;
    /// A def in a group of registers of a class.
    pub const GROUP_CLASS_DEF: u32 = 7;
    /// A block parameter at a block's start.
    pub const BLOCKPARAM_IN: u32 = 8;
    /// A block parameter at a jump.
    pub const BLOCKPARAM_OUT: u32 = 9;
}

/// Kinds of reservations, the column [`Reservations::kind`].
pub mod reservation_kind {
    /// Held by a virtual register, which may be evicted at its spill weight.
    pub const WEIGHTED: u32 = 0;
    /// A def in this very register.
    pub const FIXED_DEF: u32 = 1;
    /// A use in this very register.
    pub const FIXED_USE: u32 = 2;
}

/// The split proposal for a job, with its tables filled into the lent columns.
///
/// For a caller that keeps work tables of its own; [`Scratch::propose_split`] is the usual way. After a proposal or none the tables
/// hold the rows that [`Proposed::rows`] counts, and one row of links for each block; later rows, and all rows after an error, are as
/// they were.
///
/// # Errors
///
/// [`Error::Lengths`] if two columns of one table, lent or read, differ in length; nothing is called then. [`Error::Refused`] with
/// a number from 1 to 12.
pub fn propose_split(job: &Job<'_>, work: &mut WorkTables<'_>) -> Result<Proposed, Error> {
    job.check_lengths()?;
    work.check_lengths()?;
    propose_with(job, work)
}

/// The same for columns whose lengths are known to fit.
fn propose_with(job: &Job<'_>, work: &mut WorkTables<'_>) -> Result<Proposed, Error> {
    let words = call::propose_split(job, work);
    answer::proposed(&words).map_err(Error::Refused)
}

/// The split point of least frequency between two instructions: the split stands before the instruction that is answered.
///
/// `prefer_early` says whether it stays next to `after` or next to `before` where frequencies are equal.
///
/// ```
/// use gelduvra::{Blocks, find_optimal_split_point};
///
/// // The middle block is the cheapest.
/// let blocks = Blocks { freq: &[4.0, 1.0, 2.0], first: &[0, 5, 9], end: &[5, 9, 12] };
/// assert_eq!(find_optimal_split_point(&blocks, 0, 12, true), Ok(5));
/// assert_eq!(find_optimal_split_point(&blocks, 0, 12, false), Ok(9));
/// ```
///
/// # Errors
///
/// [`Error::Lengths`] if the columns differ in length. [`Error::Refused`] with 2 or 3 for the blocks, or 13: `after` must be below
/// `before`, and `before` at most the last block's end.
pub fn find_optimal_split_point(
    blocks: &Blocks<'_>,
    after: u32,
    before: u32,
    prefer_early: bool,
) -> Result<u32, Error> {
    blocks.check_lengths()?;
    let words = call::find_optimal_split_point(blocks, after, before, prefer_early);
    answer::split_point(&words).map_err(Error::Refused)
}
