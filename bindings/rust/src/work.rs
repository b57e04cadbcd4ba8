//! The work tables: lent by the caller, or kept between jobs.

use crate::answer::{Answer, Rows};
use crate::error::{Error, Table, same_length};
use crate::job::Job;
use crate::{MOST_ITEMS, propose_with};

/// Work tables that the caller lends to [`propose_split`](crate::propose_split). The columns of one table must have one length.
///
/// With U uses, B blocks and S segments a job needs U+2 rows of uses, U+B+2 gaps, U+B+S+2 gap segments and B links; with fewer it is
/// refused by 12.
#[derive(Debug, Default)]
pub struct WorkTables<'a> {
    /// For each block the nearest block before it with a strictly lower frequency, or [`ABSENT`](crate::ABSENT).
    pub prev_lower_freq: &'a mut [u32],
    /// The same behind it.
    pub next_lower_freq: &'a mut [u32],
    /// The use table: the instruction.
    pub inst: &'a mut [u32],
    /// The use table: the main weight.
    pub weight: &'a mut [f32],
    /// The use table: the weight of uses at the end of a segment.
    pub left_weight: &'a mut [f32],
    /// The use table: the weight of uses just before the start of a segment.
    pub right_weight: &'a mut [f32],
    /// The gaps: the first instruction.
    pub gap_from: &'a mut [u32],
    /// The gaps: the instruction after the last.
    pub gap_to: &'a mut [u32],
    /// The gaps: the weight of the uses placed there.
    pub gap_weight: &'a mut [f32],
    /// The gaps: the live instructions.
    pub live: &'a mut [u32],
    /// The gaps: the least frequency of the blocks met.
    pub min_freq: &'a mut [f32],
    /// The gaps: the block that carries it.
    pub gap_block: &'a mut [u32],
    /// The gap segments: the first point.
    pub segment_from: &'a mut [u32],
    /// The gap segments: the point after the last.
    pub segment_to: &'a mut [u32],
    /// The gap segments: the value.
    pub segment_value: &'a mut [u32],
    /// The gap segments: the gap.
    pub segment_gap: &'a mut [u32],
}

impl WorkTables<'_> {
    pub(crate) fn check_lengths(&self) -> Result<(), Error> {
        same_length(Table::Links, [self.prev_lower_freq.len(), self.next_lower_freq.len()])?;
        let uses = [self.inst.len(), self.weight.len(), self.left_weight.len(), self.right_weight.len()];
        same_length(Table::UseTable, uses)?;
        let gaps = [
            self.gap_from.len(),
            self.gap_to.len(),
            self.gap_weight.len(),
            self.live.len(),
            self.min_freq.len(),
            self.gap_block.len(),
        ];
        same_length(Table::Gaps, gaps)?;
        let segments =
            [self.segment_from.len(), self.segment_to.len(), self.segment_value.len(), self.segment_gap.len()];
        same_length(Table::GapSegments, segments)
    }
}

/// The lower links of a job's blocks.
#[derive(Clone, Copy, Debug, PartialEq)]
pub struct Links<'a> {
    /// For each block the nearest block before it with a strictly lower frequency, or [`ABSENT`](crate::ABSENT).
    pub prev_lower_freq: &'a [u32],
    /// The same behind it.
    pub next_lower_freq: &'a [u32],
}

/// The instructions that weigh anything, in order, with the first and the last.
#[derive(Clone, Copy, Debug, PartialEq)]
pub struct UseTable<'a> {
    /// The instruction.
    pub inst: &'a [u32],
    /// The main weight.
    pub weight: &'a [f32],
    /// The weight of uses at the end of a segment.
    pub left_weight: &'a [f32],
    /// The weight of uses just before the start of a segment.
    pub right_weight: &'a [f32],
}

/// The gaps: they tile the instructions from the first to the last, and the best use has one of its own.
#[derive(Clone, Copy, Debug, PartialEq)]
pub struct Gaps<'a> {
    /// The first instruction.
    pub from: &'a [u32],
    /// The instruction after the last.
    pub to: &'a [u32],
    /// The weight of the uses placed there.
    pub weight: &'a [f32],
    /// The live instructions.
    pub live: &'a [u32],
    /// The least frequency of the blocks met.
    pub min_freq: &'a [f32],
    /// The block that carries it: the gap's last left of the best use, the first right of it, and the best use's own for its gap.
    pub block: &'a [u32],
}

/// All nonempty overlaps of a gap and a segment, in order.
#[derive(Clone, Copy, Debug, PartialEq)]
pub struct GapSegments<'a> {
    /// The first point.
    pub from: &'a [u32],
    /// The point after the last.
    pub to: &'a [u32],
    /// The segment's value.
    pub value: &'a [u32],
    /// The gap, a row of [`Gaps`].
    pub gap: &'a [u32],
}

/// Work tables kept between jobs. They grow to what a job needs and never shrink, so that a stream of jobs allocates nothing once
/// they are large enough.
///
/// The tables of the latest job can be looked at until the next one. After an error all views are empty; after
/// [`Answer::NoBestUse`] there are links and uses alone.
#[derive(Clone, Debug, Default)]
pub struct Scratch {
    prev_lower_freq: Vec<u32>,
    next_lower_freq: Vec<u32>,
    inst: Vec<u32>,
    weight: Vec<f32>,
    left_weight: Vec<f32>,
    right_weight: Vec<f32>,
    gap_from: Vec<u32>,
    gap_to: Vec<u32>,
    gap_weight: Vec<f32>,
    live: Vec<u32>,
    min_freq: Vec<f32>,
    gap_block: Vec<u32>,
    segment_from: Vec<u32>,
    segment_to: Vec<u32>,
    segment_value: Vec<u32>,
    segment_gap: Vec<u32>,
    blocks: usize,
    rows: Rows,
}

impl Scratch {
    /// Empty tables, which the first jobs make grow.
    pub fn new() -> Self {
        Self::default()
    }

    /// Tables large enough for every job, some 490 kilobytes, so that none allocates.
    pub fn for_any_job() -> Self {
        let mut scratch = Self::default();
        scratch.grow(MOST_ITEMS, MOST_ITEMS, MOST_ITEMS);
        scratch
    }

    /// The split proposal for a job.
    ///
    /// # Errors
    ///
    /// [`Error::Lengths`] if two columns of one table differ in length; nothing is called then. [`Error::Refused`] with a number
    /// from 1 to 11.
    pub fn propose_split(&mut self, job: &Job<'_>) -> Result<Answer, Error> {
        (self.blocks, self.rows) = (0, Rows::default());
        job.check_lengths()?;
        let blocks = job.blocks.end.len();
        self.grow(job.uses.position.len(), blocks, job.segments.start.len());
        let proposed = propose_with(job, &mut self.lent())?;
        (self.blocks, self.rows) = (blocks, proposed.rows);
        Ok(proposed.answer)
    }

    /// The links of the latest job's blocks.
    pub fn links(&self) -> Links<'_> {
        let n = self.blocks;
        Links { prev_lower_freq: &self.prev_lower_freq[..n], next_lower_freq: &self.next_lower_freq[..n] }
    }

    /// The latest job's use table.
    pub fn uses(&self) -> UseTable<'_> {
        let n = self.rows.uses;
        UseTable {
            inst: &self.inst[..n],
            weight: &self.weight[..n],
            left_weight: &self.left_weight[..n],
            right_weight: &self.right_weight[..n],
        }
    }

    /// The latest job's gaps.
    pub fn gaps(&self) -> Gaps<'_> {
        let n = self.rows.gaps;
        Gaps {
            from: &self.gap_from[..n],
            to: &self.gap_to[..n],
            weight: &self.gap_weight[..n],
            live: &self.live[..n],
            min_freq: &self.min_freq[..n],
            block: &self.gap_block[..n],
        }
    }

    /// The latest job's gap segments.
    pub fn gap_segments(&self) -> GapSegments<'_> {
        let n = self.rows.gap_segments;
        GapSegments {
            from: &self.segment_from[..n],
            to: &self.segment_to[..n],
            value: &self.segment_value[..n],
            gap: &self.segment_gap[..n],
        }
    }

    /// As many rows as refusal 12 asks for. A table above the limit is refused before that, and needs none. The columns of one table
    /// grow together, so the first tells for all.
    fn grow(&mut self, uses: usize, blocks: usize, segments: usize) {
        let [u, b, s] = [uses, blocks, segments].map(|items| items.min(MOST_ITEMS));
        let [links, uses, gaps, gap_segments] = [b, u + 2, u + b + 2, u + b + s + 2];
        if self.prev_lower_freq.len() < links {
            resize([&mut self.prev_lower_freq, &mut self.next_lower_freq], links);
        }
        if self.inst.len() < uses {
            resize([&mut self.inst], uses);
            resize([&mut self.weight, &mut self.left_weight, &mut self.right_weight], uses);
        }
        if self.gap_from.len() < gaps {
            resize([&mut self.gap_from, &mut self.gap_to, &mut self.live, &mut self.gap_block], gaps);
            resize([&mut self.gap_weight, &mut self.min_freq], gaps);
        }
        if self.segment_from.len() < gap_segments {
            resize(
                [&mut self.segment_from, &mut self.segment_to, &mut self.segment_value, &mut self.segment_gap],
                gap_segments,
            );
        }
    }

    fn lent(&mut self) -> WorkTables<'_> {
        WorkTables {
            prev_lower_freq: &mut self.prev_lower_freq,
            next_lower_freq: &mut self.next_lower_freq,
            inst: &mut self.inst,
            weight: &mut self.weight,
            left_weight: &mut self.left_weight,
            right_weight: &mut self.right_weight,
            gap_from: &mut self.gap_from,
            gap_to: &mut self.gap_to,
            gap_weight: &mut self.gap_weight,
            live: &mut self.live,
            min_freq: &mut self.min_freq,
            gap_block: &mut self.gap_block,
            segment_from: &mut self.segment_from,
            segment_to: &mut self.segment_to,
            segment_value: &mut self.segment_value,
            segment_gap: &mut self.segment_gap,
        }
    }
}

fn resize<T: Clone + Default, const N: usize>(columns: [&mut Vec<T>; N], rows: usize) {
    for column in columns {
        column.resize(rows, T::default());
    }
}
