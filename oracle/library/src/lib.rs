//! A job's rows put into the columns that the binding takes, and work tables with a pattern in them.

mod columns;
mod lent;

pub use columns::Columns;
pub use lent::{Lent, Rooms, rooms_of};
