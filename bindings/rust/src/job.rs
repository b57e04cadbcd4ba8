//! A job: its parameters and its seven tables, each a struct of borrowed columns.

use crate::error::{Error, Table, same_length};

/// What is asked: where may a live range be split so that a part of it gets one register?
///
/// Tables are structs with a slice for each column, and the fields have names, as six columns of one type would be confused by their
/// places. The columns of one table must have one length; the call checks this before it does anything else. Tables that a job does
/// not need stay empty: `..Job::default()`.
#[derive(Clone, Copy, Debug, Default)]
pub struct Job<'a> {
    /// The numbers that stand beside the tables.
    pub parameters: Parameters,
    /// The blocks of the function, in order.
    pub blocks: Blocks<'a>,
    /// For each value its code of [`remat_code`](crate::remat_code).
    pub codes: &'a [u32],
    /// The segments of the live range, in order.
    pub segments: Segments<'a>,
    /// The uses of all segments, in order.
    pub uses: Uses<'a>,
    /// The spill weights that reservations name. Infinity is one of them.
    ///
    /// Whoever evicts enters exactly [`SplitProposal::normalised_weight`](crate::SplitProposal::normalised_weight) for the register that
    /// evicts, or the law that evictions end does not hold.
    pub spill_weights: &'a [f32],
    /// What holds the register's units.
    pub reservations: Reservations<'a>,
    /// Uses in the register's own units.
    pub fixed_uses: FixedUses<'a>,
}

/// A job's parameters. By default k is 0, all scales are 1, and there is no unit, which is refused: set the units.
#[derive(Clone, Copy, Debug, PartialEq)]
pub struct Parameters {
    /// The adjustment k, added to the instructions when a weight is normalised; at most 65,536.
    pub k: u32,
    /// The scale of a cost whose value is rematerialised cheaper than by a move; at most 65536.0.
    pub cheaper_than_move: f32,
    /// The scale of a cost whose value is rematerialised cheaper than by a load.
    pub cheaper_than_load: f32,
    /// The scale of a cost whose value is rematerialised indirectly.
    pub indirect: f32,
    /// How many units the register has, 1 to 8.
    pub units: u32,
}

impl Default for Parameters {
    fn default() -> Self {
        Self { k: 0, cheaper_than_move: 1.0, cheaper_than_load: 1.0, indirect: 1.0, units: 0 }
    }
}

/// Blocks. They follow one another from instruction 0, without hole and none empty.
#[derive(Clone, Copy, Debug, Default)]
pub struct Blocks<'a> {
    /// How often each is run; finite and without a sign.
    pub freq: &'a [f32],
    /// The first instruction.
    pub first: &'a [u32],
    /// The instruction after the last; at most 262,144.
    pub end: &'a [u32],
}

/// Segments of the live range: points from start to before end, disjoint and in order.
#[derive(Clone, Copy, Debug, Default)]
pub struct Segments<'a> {
    /// The first point.
    pub start: &'a [u32],
    /// The point after the last.
    pub end: &'a [u32],
    /// The value that lives there, a row of [`Job::codes`].
    pub value: &'a [u32],
    /// The first of its uses; where the uses of the segment before ended.
    pub first_use: &'a [u32],
    /// The use after its last.
    pub end_use: &'a [u32],
    /// The sum of its flags of [`segment_flag`](crate::segment_flag).
    pub flags: &'a [u32],
}

/// Uses. They do not fall within a segment.
#[derive(Clone, Copy, Debug, Default)]
pub struct Uses<'a> {
    /// The instruction.
    pub position: &'a [u32],
    /// Its kind, of [`use_kind`](crate::use_kind).
    pub kind: &'a [u32],
    /// The cost field: of a fixed def or use 1 if the register is in memory, else 0; of a class or group kind the class's cost as the
    /// bits of an f32 up to 65536.0; else 0.
    pub cost: &'a [u32],
}

/// Reservations: what holds a unit, and from where to where. Units do not fall; within one the rows are disjoint and in order.
#[derive(Clone, Copy, Debug, Default)]
pub struct Reservations<'a> {
    /// The unit, below [`Parameters::units`].
    pub unit: &'a [u32],
    /// The first point.
    pub start: &'a [u32],
    /// The point after the last.
    pub end: &'a [u32],
    /// Its kind, of [`reservation_kind`](crate::reservation_kind).
    pub kind: &'a [u32],
    /// Of a weighted one a row of [`Job::spill_weights`], of a fixed use its value, else 0. Which weight belongs there is said at that column.
    pub index: &'a [u32],
    /// Of a weighted one a row among its unit's fixed uses, or [`ABSENT`](crate::ABSENT); else 0.
    pub fixed: &'a [u32],
}

/// Fixed uses of the register's units. Neither units nor, within one, points fall.
#[derive(Clone, Copy, Debug, Default)]
pub struct FixedUses<'a> {
    /// The unit, below [`Parameters::units`].
    pub unit: &'a [u32],
    /// The Boundary of an instruction; the use lasts for two points from there.
    pub point: &'a [u32],
    /// The value that is used.
    pub value: &'a [u32],
}

impl Job<'_> {
    pub(crate) fn check_lengths(&self) -> Result<(), Error> {
        self.blocks.check_lengths()?;
        let Segments { start, end, value, first_use, end_use, flags } = self.segments;
        same_length(Table::Segments, [start, end, value, first_use, end_use, flags].map(<[u32]>::len))?;
        let Uses { position, kind, cost } = self.uses;
        same_length(Table::Uses, [position, kind, cost].map(<[u32]>::len))?;
        let Reservations { unit, start, end, kind, index, fixed } = self.reservations;
        same_length(Table::Reservations, [unit, start, end, kind, index, fixed].map(<[u32]>::len))?;
        let FixedUses { unit, point, value } = self.fixed_uses;
        same_length(Table::FixedUses, [unit, point, value].map(<[u32]>::len))
    }
}

impl Blocks<'_> {
    pub(crate) fn check_lengths(&self) -> Result<(), Error> {
        same_length(Table::Blocks, [self.freq.len(), self.first.len(), self.end.len()])
    }
}
