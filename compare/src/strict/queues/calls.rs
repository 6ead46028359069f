//! The calls under test, by number and values.

use super::terms::{Field, Opening};
use crate::frames::{Dates, Load, Request};

/// The queue manager's calls on the record that is open; document 01's number
/// where they are refused. With nothing open all but `open` answer 1.
pub trait Calls {
    /// A refused opening keeps what was open.
    fn open(&mut self, opening: &Opening) -> Result<(), u8>;
    fn dry_run(&mut self, request: Request) -> Result<Dates, u8>;
    fn book(&mut self, request: Request, stated: Dates) -> Result<(), u8>;
    /// Each class's queue.
    fn list(&mut self) -> Result<Vec<i64>, u8>;
    fn enqueue(&mut self, load: Load) -> Result<(), u8>;
    fn dequeue(&mut self, load: Load) -> Result<(), u8>;

    /// The same record with this in it is open from now on; 1 if it breaks its
    /// rules by that.
    fn write(&mut self, field: Field) -> Result<(), u8>;
}
