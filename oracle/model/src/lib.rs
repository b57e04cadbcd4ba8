//! A second reading of document 01, by its definitions: no cursor, no stack, no running cost.
//!
//! It follows the document's words and not the steps of the supplied Rust. It answers what the Rust can't (the
//! refusals), is compared with it on what it can, and takes the slips that recorded sheets are to notice.

mod refuse;
mod region;
mod slips;
mod tables;

pub use refuse::{ROOMY, Rooms, refusal, refusal_with, split_point_refusal};
pub use region::{Outcome, Side, Try};
pub use slips::{CheckSlip, Clause, PointSlip, Slip};

use sheet::{Answer, Block, Job, Tables};

/// A job's answer, the rows filled, and the tries of its growth in order, the best use's own gap first.
pub struct Read {
    pub answer: Answer,
    pub tables: Tables,
    pub tries: Vec<Try>,
}

/// The reading of one job, with at most one slip put into it.
#[derive(Clone, Copy)]
pub struct Reading<'a> {
    job: &'a Job,
    slip: Option<Slip>,
}

impl<'a> Reading<'a> {
    pub fn of(job: &'a Job) -> Self {
        Self { job, slip: None }
    }

    pub fn with_slip(job: &'a Job, slip: Slip) -> Self {
        Self { job, slip: Some(slip) }
    }

    fn slips(&self, slip: Slip) -> bool {
        self.slip == Some(slip)
    }

    /// The answer to a job that no check refuses.
    pub fn read(&self) -> Read {
        let links = self.links();
        let uses = self.use_table();
        let Some(best) = self.best_use(&uses) else {
            let uses = uses.iter().map(tables::UseWeights::row).collect();
            let tables = Tables { links, uses, ..Tables::default() };
            return Read { answer: Answer::None(1), tables, tries: vec![] };
        };
        let (gaps, own) = self.gaps(&links, &uses, best);
        let gap_segments = self.gap_segments(&gaps);
        let (answer, tries) = self.grow(&gaps, own, &gap_segments);
        let uses = uses.iter().map(tables::UseWeights::row).collect();
        Read { answer, tables: Tables { links, uses, gaps, gap_segments }, tries }
    }
}

/// Puts the blocks of the second reading into tables without them, the Rust's. Answers whether each carries the frequency there.
pub fn name_blocks(job: &Job, tables: &mut Tables) -> bool {
    let reading = Reading::of(job);
    let uses = reading.use_table();
    if let Some(best) = reading.best_use(&uses) {
        reading.name_blocks(&mut tables.gaps, uses[best].inst);
    }
    reading.blocks_carry(&tables.gaps)
}

/// A job's answer by document 01, refusals included.
pub fn answer(job: &Job) -> Answer {
    match refusal(job) {
        Some((number, place)) => Answer::Refused(number, place),
        None => Reading::of(job).read().answer,
    }
}

/// The lower-cost split point: the cheapest place between, the one nearest to the preferred end.
///
/// Early looks at the blocks that a point from `after + 1` on may start in, late at those that it may stand behind.
pub fn split_point(blocks: &[Block], after: u32, before: u32, early: bool, slip: Option<PointSlip>) -> u32 {
    let first = if slip == Some(PointSlip::FromAfter) { after } else { after + 1 };
    if first == before {
        return before;
    }
    let early = early != (slip == Some(PointSlip::Exchanged));
    let short = (slip == Some(PointSlip::Short)) as u32;
    let met = |b: &&Block| match early {
        true => b.end > first && b.first + short <= before,
        false => b.end >= first + short && b.first < before,
    };
    let freq = |b: &Block| f32::from_bits(b.freq);
    let least = blocks.iter().filter(met).map(freq).fold(f32::INFINITY, f32::min);
    let mut lowest = blocks.iter().filter(met).filter(|b| freq(b) == least);
    let takes_first = early != (slip == Some(PointSlip::Ties));
    let block = if takes_first { lowest.next() } else { lowest.next_back() }.unwrap();
    if early { block.first.max(first) } else { block.end.min(before) }
}
