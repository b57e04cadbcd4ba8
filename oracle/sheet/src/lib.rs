//! Jobs, answers and tables of document 01, and their text.

mod answer;
mod figure;
mod read;
mod write;

pub use answer::{Answer, Gap, GapSegment, Link, Proposal, Tables, UseRow};
pub use figure::{FigureSlip, h_figure, h_figure_with};
pub use read::{Limits, ReadSlip, number_at, read_sheet, read_sheet_with};
pub use write::{fields, write_answer, write_sheet, write_tables};

/// What stands for an absent link or an absent fixed row.
pub const ABSENT: u32 = u32::MAX;

/// The most items of any input table.
pub const MOST_ITEMS: usize = 4096;

/// A job: the parameters of line P and the seven tables. Weights and frequencies are bits.
#[derive(Clone, Debug, Default, PartialEq, Eq)]
pub struct Job {
    pub k: u32,
    pub scales: [u32; 3],
    pub units: u32,
    pub blocks: Vec<Block>,
    pub values: Vec<u32>,
    pub segments: Vec<Segment>,
    pub uses: Vec<Use>,
    pub weights: Vec<u32>,
    pub rows: Vec<Row>,
    pub fixed: Vec<FixedUse>,
}

#[derive(Clone, Copy, Debug, PartialEq, Eq)]
pub struct Block {
    pub freq: u32,
    pub first: u32,
    pub end: u32,
}

#[derive(Clone, Copy, Debug, PartialEq, Eq)]
pub struct Segment {
    pub start: u32,
    pub end: u32,
    pub value: u32,
    pub first_use: u32,
    pub end_use: u32,
    pub flags: u32,
}

pub const LIVE_IN: u32 = 1;
pub const LIVE_OUT: u32 = 2;
pub const FIXED_HINT: u32 = 4;
pub const FIXED_DEF: u32 = 8;

#[derive(Clone, Copy, Debug, PartialEq, Eq)]
pub struct Use {
    pub pos: u32,
    pub kind: u32,
    pub cost: u32,
}

/// A reservation.
#[derive(Clone, Copy, Debug, PartialEq, Eq)]
pub struct Row {
    pub unit: u32,
    pub start: u32,
    pub end: u32,
    pub kind: u32,
    pub index: u32,
    pub fixed: u32,
}

#[derive(Clone, Copy, Debug, PartialEq, Eq)]
pub struct FixedUse {
    pub unit: u32,
    pub point: u32,
    pub value: u32,
}

impl Job {
    /// The end of the last block; 0 if there is none.
    pub fn last_end(&self) -> u32 {
        self.blocks.last().map_or(0, |b| b.end)
    }

    /// The sizes of the seven tables in sheet order.
    pub fn sizes(&self) -> [usize; 7] {
        [
            self.blocks.len(),
            self.values.len(),
            self.segments.len(),
            self.uses.len(),
            self.weights.len(),
            self.rows.len(),
            self.fixed.len(),
        ]
    }

    /// Whether every table keeps to a sheet's limits.
    pub fn fits_sheet(&self) -> bool {
        self.sizes().iter().zip(read::MOST_LINES).all(|(n, most)| *n <= most)
    }
}
