//! What a job is answered, from the words of the call.

use crate::ABSENT;
use crate::call;
use crate::error::Refusal;
use crate::job::Parameters;

/// What an accepted job is answered.
#[derive(Clone, Copy, Debug, PartialEq)]
pub enum Answer {
    /// Where to split, and what it weighs.
    Proposal(SplitProposal),
    /// None of kind 1: no use weighs anything, or the use table has one row.
    NoBestUse,
    /// None of kind 2: the best use's own gap meets something fixed or too heavy.
    NoRegion,
}

impl Answer {
    /// The proposal, if there is one.
    pub fn proposal(self) -> Option<SplitProposal> {
        match self {
            Answer::Proposal(proposal) => Some(proposal),
            _ => None,
        }
    }
}

/// A part of the live range that may hold the register.
#[derive(Clone, Copy, Debug, PartialEq)]
pub struct SplitProposal {
    /// The instruction before which the part begins; `None` where it begins with the live range.
    pub left: Option<u32>,
    /// The instruction before which the part ends; `None` where it ends with the live range.
    pub right: Option<u32>,
    /// The weight of the uses inside.
    pub use_weight: f32,
    /// The instructions inside at which the live range is live.
    pub live_insts: u32,
    /// The heaviest spill weight that is met inside, 0 if none is.
    pub interference_weight: f32,
    /// What the two cuts cost: the frequencies just outside.
    pub split_cost: f32,
}

impl SplitProposal {
    /// The normalised weight: the use weight over the live instructions and k, rounded as proved, at most [`f32::MAX`]. The parameters are
    /// those of the job that was answered this proposal.
    ///
    /// Whoever takes a proposal and evicts what its region meets enters exactly this weight, to the bit, as the spill weight of the
    /// register that evicts: where reservations carry it, evictions end after at most 10,000, which is proved. With another weight, one
    /// computed by hand or raised later among them, that law does not hold.
    ///
    /// A use weight that is negative or not a number, which no proposal has, counts as zero.
    ///
    /// ```
    /// # use gelduvra::{Parameters, SplitProposal};
    /// let zero = SplitProposal { left: None, right: None, use_weight: 0.0, live_insts: 1, interference_weight: 0.0, split_cost: 0.0 };
    /// let proposal = SplitProposal { use_weight: 2.0, live_insts: 4, ..zero };
    /// assert_eq!(proposal.normalised_weight(&Parameters::default()), 0.5);
    /// assert_eq!(proposal.normalised_weight(&Parameters { k: 4, ..Parameters::default() }), 0.25);
    /// ```
    pub fn normalised_weight(&self, parameters: &Parameters) -> f32 {
        call::normalised_weight(self.use_weight, self.live_insts, parameters.k)
    }
}

/// How many rows of the work tables a job has filled. Links have one row for each block.
#[derive(Clone, Copy, Debug, Default, PartialEq, Eq)]
pub struct Rows {
    /// Rows of the use table.
    pub uses: usize,
    /// Gaps.
    pub gaps: usize,
    /// Gap segments.
    pub gap_segments: usize,
}

/// An answer, and the rows that were filled.
#[derive(Clone, Copy, Debug, PartialEq)]
pub struct Proposed {
    /// What the job is answered.
    pub answer: Answer,
    /// How many rows it has filled.
    pub rows: Rows,
}

/// The words of `gelduvra_propose_split`: the kind, six fields, three numbers of rows.
pub(crate) fn proposed(words: &[u64; 10]) -> Result<Proposed, Refusal> {
    let [kind, fields @ .., uses, gaps, gap_segments] = *words;
    let [left, right, use_weight, live_insts, interference_weight, split_cost] = fields.map(|word| word as u32);
    let present = |end| (end != ABSENT).then_some(end);
    let answer = match kind {
        0 => Answer::Proposal(SplitProposal {
            left: present(left),
            right: present(right),
            use_weight: f32::from_bits(use_weight),
            live_insts,
            interference_weight: f32::from_bits(interference_weight),
            split_cost: f32::from_bits(split_cost),
        }),
        1 => Answer::NoBestUse,
        2 => Answer::NoRegion,
        3 => return Err(Refusal { number: left, place: right }),
        _ => unreachable!("the library has four kinds of answer"),
    };
    let [uses, gaps, gap_segments] = [uses, gaps, gap_segments].map(|rows| rows as usize);
    Ok(Proposed { answer, rows: Rows { uses, gaps, gap_segments } })
}

/// The words of `gelduvra_find_optimal_split_point`: the kind, then the instruction, or number and place.
pub(crate) fn split_point(words: &[u64; 3]) -> Result<u32, Refusal> {
    let [kind, number, place] = words.map(|word| word as u32);
    match kind {
        0 => Ok(number),
        1 => Err(Refusal { number, place }),
        _ => unreachable!("the library has two kinds of answer"),
    }
}
