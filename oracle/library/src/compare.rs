//! One job, damaged job or split point on both sides.

use gelduvra::{Answer, Error, Parameters, Proposed, Refusal, Rows, Scratch};
use library::{Columns, Lent, Rooms, rooms_of};
// An answer in the oracle's words, with the normalised weight.
use sheet::Answer as Said;
use sheet::{Block, Gap, GapSegment, Job, Link, Proposal, Tables, UseRow};

use supplied::Ran;

use crate::summary::Summary;

pub struct Comparison {
    seed: u64,
    columns: Columns,
    lent: Lent,
    /// Kept between all jobs, as a user would.
    scratch: Scratch,
    summary: Summary,
}

impl Comparison {
    pub fn new(seed: u64) -> Self {
        Self {
            seed,
            columns: Columns::default(),
            lent: Lent::new(),
            scratch: Scratch::new(),
            summary: Summary::default(),
        }
    }

    pub fn summary(&self) -> &Summary {
        &self.summary
    }

    /// An accepted job against the Rust; its first difference is told.
    pub fn job(&mut self, item: u64, job: &Job) {
        if let Some(refusal) = model::refusal(job) {
            return self.differ(item, format!("the generator made a job that is refused: {refusal:?}"));
        }
        match supplied::run_job(job) {
            Err(said) => self.fired(item, said),
            Ok(mut ran) => {
                if !model::name_blocks(job, &mut ran.tables) {
                    self.differ(item, "the block that the second reading names has another frequency".to_string());
                }
                self.summary.add(job, &ran);
                self.columns.put(job);
                if let Err(difference) = self.beside(item, job, &ran) {
                    self.differ(item, difference);
                }
            }
        }
    }

    /// Lent tables with a few rows more than the job needs, one table too short, and the scratch.
    fn beside(&mut self, item: u64, job: &Job, ran: &Ran) -> Result<(), String> {
        let told = ran.answer;
        let needs = rooms_of(job);
        let more = [0, 1, 2, 3].map(|table| (item >> (2 * table)) as usize % 3);
        let rooms = std::array::from_fn(|table| needs[table] + more[table]);
        self.lent_call("the Rust", rooms, &told, &ran.tables)?;

        // One row too few in one table: refusal 12, and nothing is written. A job has a block, so links can be too short as well.
        let short = item as usize % 4;
        let mut rooms = needs;
        rooms[short] -= 1;
        self.lent_call("document 01", rooms, &Said::Refused(12, short as u32), &Tables::default())
            .map_err(|difference| format!("a table too short, {difference}"))?;

        self.scratch_call("the Rust", &told, &ran.tables)
    }

    /// The call with tables of so many rows: the answer, the rows used, and every row of the lent tables. `by` has told what is right.
    fn lent_call(&mut self, by: &str, rooms: Rooms, told: &Said, tables: &Tables) -> Result<(), String> {
        self.summary.runs += 1;
        self.lent.fill(rooms);
        let job = self.columns.job();
        let proposed = gelduvra::propose_split(&job, &mut self.lent.lend());
        let rows = proposed.as_ref().map_or(Rows::default(), |p: &Proposed| p.rows);
        same("answer", said_of(proposed.map(|p| p.answer), &job.parameters), by, told)?;
        let used = Rows { uses: tables.uses.len(), gaps: tables.gaps.len(), gap_segments: tables.gap_segments.len() };
        same("rows used", rows, by, &used)?;
        self.lent.differs(tables, by).map_or(Ok(()), Err)
    }

    /// The call with the scratch that all jobs before it have used.
    fn scratch_call(&mut self, by: &str, told: &Said, tables: &Tables) -> Result<(), String> {
        let job = self.columns.job();
        let answer = self.scratch.propose_split(&job);
        same("answer from the scratch", said_of(answer, &job.parameters), by, told)?;
        match scratch_tables(&self.scratch) == *tables {
            true => Ok(()),
            false => Err(format!("the scratch's views are not the tables of {by}")),
        }
    }

    /// A damaged job: its refusal by the second reading of document 01, or, if it is sound all the same, as an accepted one.
    pub fn damaged(&mut self, item: u64, job: &Job) {
        self.summary.damaged += 1;
        let Some((number, place)) = model::refusal(job) else {
            return self.job(item, job);
        };
        self.summary.refused[number as usize] += 1;
        self.columns.put(job);
        let (by, refused, nothing) = ("the second reading", Said::Refused(number, place), Tables::default());
        let lent = self.lent_call(by, rooms_of(job), &refused, &nothing);
        if let Err(difference) = lent.and_then(|_| self.scratch_call(by, &refused, &nothing)) {
            self.differ(item, format!("damaged, {difference}"));
        }
    }

    /// A split point: the Rust's, or the refusal by the second reading.
    pub fn point(&mut self, item: u64, blocks: &[Block], after: u32, before: u32, early: bool) {
        self.summary.points += 1;
        let told = match model::split_point_refusal(blocks, after, before, None) {
            Some((number, place)) => {
                self.summary.refused[number as usize] += 1;
                Err(Error::Refused(Refusal { number, place }))
            }
            None => match supplied::split_point(blocks, after, before, early) {
                Ok(point) => Ok(point),
                Err(said) => return self.fired(item, said),
            },
        };
        let by = if told.is_ok() { "the Rust" } else { "the second reading" };
        self.columns.put(&Job { blocks: blocks.to_vec(), ..Job::default() });
        let found = gelduvra::find_optimal_split_point(&self.columns.blocks(), after, before, early);
        if let Err(difference) = same("split point", found, by, &told) {
            self.differ(item, format!("after {after} before {before} early {early}, {difference}"));
        }
    }

    fn fired(&mut self, item: u64, said: String) {
        self.summary.fired += 1;
        self.differ(item, format!("an assertion of the Rust fired: {said}"));
    }

    /// Prints the first differences, and goes on.
    fn differ(&mut self, item: u64, what: String) {
        const SHOWN: u64 = 10;
        self.summary.differences += 1;
        if self.summary.differences <= SHOWN {
            println!("seed {} item {item}: {what}", self.seed);
        }
        if self.summary.differences == SHOWN {
            println!("further differences are only counted");
        }
    }
}

/// What differs, with the values of both sides.
fn same<T: PartialEq + std::fmt::Debug>(what: &str, found: T, by: &str, told: &T) -> Result<(), String> {
    if found == *told { Ok(()) } else { Err(format!("{what}: the library {found:?}, {by} {told:?}")) }
}

/// What the library answers a job with these parameters.
fn said_of(answer: Result<Answer, Error>, parameters: &Parameters) -> Said {
    match answer {
        Ok(Answer::Proposal(p)) => {
            let [use_weight, interference_weight, split_cost] =
                [p.use_weight, p.interference_weight, p.split_cost].map(f32::to_bits);
            let (left, right, live_insts) = (p.left, p.right, p.live_insts);
            let proposal = Proposal { left, right, use_weight, live_insts, interference_weight, split_cost };
            Said::Proposed(proposal, p.normalised_weight(parameters).to_bits())
        }
        Ok(Answer::NoBestUse) => Said::None(1),
        Ok(Answer::NoRegion) => Said::None(2),
        Err(Error::Refused(refusal)) => Said::Refused(refusal.number, refusal.place),
        Err(Error::Lengths(error)) => panic!("{error}"),
    }
}

/// The views of a scratch as the oracle's tables.
fn scratch_tables(scratch: &Scratch) -> Tables {
    let (l, u, g, o) = (scratch.links(), scratch.uses(), scratch.gaps(), scratch.gap_segments());
    let link = |i: usize| Link { prev: l.prev_lower_freq[i], next: l.next_lower_freq[i] };
    let use_row = |i: usize| {
        let [main, left, right] = [u.weight[i], u.left_weight[i], u.right_weight[i]].map(f32::to_bits);
        UseRow { inst: u.inst[i], main, left, right }
    };
    let gap = |i: usize| {
        let [weight, freq] = [g.weight[i], g.min_freq[i]].map(f32::to_bits);
        Gap { from: g.from[i], to: g.to[i], weight, live_insts: g.live[i], freq, block: g.block[i] }
    };
    let gap_segment = |i: usize| GapSegment { from: o.from[i], to: o.to[i], value: o.value[i], gap: o.gap[i] };
    Tables {
        links: (0..l.prev_lower_freq.len()).map(link).collect(),
        uses: (0..u.inst.len()).map(use_row).collect(),
        gaps: (0..g.from.len()).map(gap).collect(),
        gap_segments: (0..o.from.len()).map(gap_segment).collect(),
    }
}
