//! What a job is answered, and the work tables.

/// The answer to a job or a sheet.
#[derive(Clone, Copy, Debug, PartialEq, Eq)]
pub enum Answer {
    /// The record, and the bits of its normalised weight.
    Proposed(Proposal, u32),
    /// None, with its kind.
    None(u32),
    /// A refusal: number and place.
    Refused(u32, u32),
}

/// The record of document 01; weights as bits.
#[derive(Clone, Copy, Debug, PartialEq, Eq)]
pub struct Proposal {
    pub left: Option<u32>,
    pub right: Option<u32>,
    pub use_weight: u32,
    pub live_insts: u32,
    pub interference_weight: u32,
    pub split_cost: u32,
}

/// The rows used of the four work tables.
#[derive(Clone, Debug, Default, PartialEq, Eq)]
pub struct Tables {
    pub links: Vec<Link>,
    pub uses: Vec<UseRow>,
    pub gaps: Vec<Gap>,
    pub gap_segments: Vec<GapSegment>,
}

/// A block's links; absent is `ABSENT`.
#[derive(Clone, Copy, Debug, PartialEq, Eq)]
pub struct Link {
    pub prev: u32,
    pub next: u32,
}

#[derive(Clone, Copy, Debug, PartialEq, Eq)]
pub struct UseRow {
    pub inst: u32,
    pub main: u32,
    pub left: u32,
    pub right: u32,
}

#[derive(Clone, Copy, Debug, PartialEq, Eq)]
pub struct Gap {
    pub from: u32,
    pub to: u32,
    pub weight: u32,
    pub live_insts: u32,
    pub freq: u32,
    /// The block that carries the frequency; absent in the Rust's tables, which have no such column.
    pub block: u32,
}

#[derive(Clone, Copy, Debug, PartialEq, Eq)]
pub struct GapSegment {
    pub from: u32,
    pub to: u32,
    pub value: u32,
    pub gap: u32,
}
