//! What can be wrong with a job, in words.

use std::fmt;

/// A table of a job, or one of the work tables.
#[derive(Clone, Copy, Debug, PartialEq, Eq, Hash)]
pub enum Table {
    /// [`Job::blocks`](crate::Job::blocks).
    Blocks,
    /// [`Job::codes`](crate::Job::codes), a row for each value.
    Values,
    /// [`Job::segments`](crate::Job::segments).
    Segments,
    /// [`Job::uses`](crate::Job::uses).
    Uses,
    /// [`Job::spill_weights`](crate::Job::spill_weights).
    SpillWeights,
    /// [`Job::reservations`](crate::Job::reservations).
    Reservations,
    /// [`Job::fixed_uses`](crate::Job::fixed_uses).
    FixedUses,
    /// The work table [`UseTable`](crate::UseTable).
    UseTable,
    /// The work table [`Gaps`](crate::Gaps).
    Gaps,
    /// The work table [`GapSegments`](crate::GapSegments).
    GapSegments,
    /// The work table [`Links`](crate::Links).
    Links,
}

impl Table {
    /// What one row is.
    fn row(self) -> &'static str {
        match self {
            Table::Blocks => "block",
            Table::Values => "value",
            Table::Segments => "segment",
            Table::Uses => "use",
            Table::SpillWeights => "spill weight",
            Table::Reservations => "reservation",
            Table::FixedUses => "fixed use",
            Table::UseTable => "row of the use table",
            Table::Gaps => "gap",
            Table::GapSegments => "gap segment",
            Table::Links => "link",
        }
    }

    fn all(self) -> &'static str {
        match self {
            Table::Blocks => "blocks",
            Table::Values => "values",
            Table::Segments => "segments",
            Table::Uses => "uses",
            Table::SpillWeights => "spill weights",
            Table::Reservations => "reservations",
            Table::FixedUses => "fixed uses",
            Table::UseTable => "use table",
            Table::Gaps => "gaps",
            Table::GapSegments => "gap segments",
            Table::Links => "links",
        }
    }
}

/// A job or a call that is refused, by the number and the first place of what is wrong.
///
/// It prints as a sentence that names the row:
///
/// ```
/// # use gelduvra::{Refusal, Table};
/// let refusal = Refusal { number: 4, place: 7 };
/// assert_eq!(refusal.to_string(), "refusal 4, value 7: its rematerialisation code is above 3");
/// assert_eq!(refusal.table(), Some(Table::Values));
/// ```
#[derive(Clone, Copy, Debug, PartialEq, Eq, Hash)]
pub struct Refusal {
    /// Which check failed: 1 to 12 for a job; 2, 3 or 13 for a split point.
    pub number: u32,
    /// The first row that fails it; for 12 the work table (0 to 3: use table, gaps, gap segments, links); 0 for 1, 2 and 13.
    pub place: u32,
}

impl Refusal {
    /// The table that is named: of rows for 3 to 11, the work table that is too short for 12, none for 1, 2 and 13.
    pub fn table(&self) -> Option<Table> {
        match self.number {
            3 => Some(Table::Blocks),
            4 => Some(Table::Values),
            5 | 6 | 8 => Some(Table::Segments),
            7 => Some(Table::Uses),
            9 => Some(Table::SpillWeights),
            10 => Some(Table::Reservations),
            11 => Some(Table::FixedUses),
            12 => [Table::UseTable, Table::Gaps, Table::GapSegments, Table::Links].get(self.place as usize).copied(),
            _ => None,
        }
    }

    /// The row of [`table`](Self::table) that is named, for 3 to 11.
    pub fn row(&self) -> Option<u32> {
        (3..=11).contains(&self.number).then_some(self.place)
    }

    /// What the number says is wrong.
    fn fault(&self) -> &'static str {
        match self.number {
            1 => "the adjustment k is above 65536, or a scale is negative, above 65536.0 or not a number",
            2 => "there is no block or no segment, the units are not 1 to 8, or a table has more than 4096 items",
            3 => {
                "it does not begin where the one before ended (0 for the first), is empty, ends above 262144, or its frequency \
                 is negative, infinite or not a number"
            }
            4 => "its rematerialisation code is above 3",
            5 => {
                "its start is not below its end or before the previous end, a point has slot 3, it ends past the last block, its \
                 value is unknown, its flags are above 15, or its uses do not follow those of the one before, end before they \
                 start or past the uses, or leave some over behind the last segment"
            }
            6 => {
                "it has the fixed-def flag, but does not start at the Boundary of an instruction from 1 on, or its first use is \
                 missing or is no fixed def at the instruction before"
            }
            7 => {
                "its kind is above 9, its cost field does not belong to its kind, its position falls within its segment or is \
                 past the last block, or it is outside its segment"
            }
            8 => {
                "it is live-out and does not end at a Boundary or has a use at its end's instruction; or it is the last, is not \
                 live-out, and has no use or goes on more than one instruction behind its last use"
            }
            9 => "it is negative or not a number",
            10 => {
                "its unit is unknown or falls, it is empty, overlaps or precedes the one before, a point has slot 3, it ends past \
                 the last block, its kind is above 2, or its index or fixed field does not belong to its kind"
            }
            11 => {
                "its unit is unknown or falls, its point is no Boundary inside the blocks or falls within its unit, or its value \
                 is unknown"
            }
            12 => "this work table has too few rows",
            13 => "`after` is not below `before`, or `before` is above the last block's end",
            _ => "unknown",
        }
    }
}

impl fmt::Display for Refusal {
    fn fmt(&self, f: &mut fmt::Formatter<'_>) -> fmt::Result {
        write!(f, "refusal {}, ", self.number)?;
        match (self.table(), self.row()) {
            (Some(table), Some(row)) => write!(f, "{} {row}", table.row())?,
            (Some(table), None) => write!(f, "the {}", table.all())?,
            (None, _) if self.number == 1 => write!(f, "the parameters")?,
            (None, _) if self.number == 13 => write!(f, "the split point")?,
            (None, _) => write!(f, "the job")?,
        }
        write!(f, ": {}", self.fault())
    }
}

impl std::error::Error for Refusal {}

/// Two columns of one table differ in length.
///
/// The library itself would take the shortest column for the table's length. In Rust this is a slip of the caller, and an error.
#[derive(Clone, Copy, Debug, PartialEq, Eq, Hash)]
pub struct LengthMismatch {
    /// The table.
    pub table: Table,
    /// The shortest column's length.
    pub shortest: usize,
    /// The longest column's length.
    pub longest: usize,
}

impl fmt::Display for LengthMismatch {
    fn fmt(&self, f: &mut fmt::Formatter<'_>) -> fmt::Result {
        let Self { table, shortest, longest } = self;
        write!(
            f,
            "the columns of the {} differ in length: the shortest has {shortest}, the longest {longest}",
            table.all()
        )
    }
}

impl std::error::Error for LengthMismatch {}

/// Why a job has no answer.
#[derive(Clone, Copy, Debug, PartialEq, Eq, Hash)]
pub enum Error {
    /// The columns of a table differ in length; the library was not called.
    Lengths(LengthMismatch),
    /// The library refused.
    Refused(Refusal),
}

impl fmt::Display for Error {
    fn fmt(&self, f: &mut fmt::Formatter<'_>) -> fmt::Result {
        match self {
            Error::Lengths(error) => error.fmt(f),
            Error::Refused(refusal) => refusal.fmt(f),
        }
    }
}

impl std::error::Error for Error {}

impl From<LengthMismatch> for Error {
    fn from(error: LengthMismatch) -> Self {
        Error::Lengths(error)
    }
}

impl From<Refusal> for Error {
    fn from(refusal: Refusal) -> Self {
        Error::Refused(refusal)
    }
}

/// An error where the columns of a table differ in length.
pub(crate) fn same_length<const N: usize>(table: Table, lengths: [usize; N]) -> Result<(), Error> {
    if lengths.iter().all(|length| *length == lengths[0]) {
        return Ok(());
    }
    let [shortest, longest] = lengths.iter().fold([usize::MAX, 0], |[a, b], length| [a.min(*length), b.max(*length)]);
    Err(LengthMismatch { table, shortest, longest }.into())
}
