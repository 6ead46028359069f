//! The calls under test, by number and values.

use super::terms::{Call, Field, Opening};
use crate::frames::{Dates, Request, Span};
use crate::trial::answers::Said;

/// One manager's calls on the record that is open; document 01's number where
/// they are refused. With nothing open all but `open` answer 1.
pub trait Calls {
    /// A refused opening keeps what was open.
    fn open(&mut self, opening: &Opening) -> Result<(), u8>;
    fn dry_run(&mut self, request: Request) -> Result<Dates, u8>;
    fn book(&mut self, request: Request, stated: Dates) -> Result<(), u8>;
    fn list(&mut self) -> Result<Vec<Span>, u8>;
    /// Asked of the free-volume manager alone.
    fn room(&mut self) -> Result<i64, u8>;

    /// The same record with this in it is open from now on; 1 if it breaks its
    /// rules by that.
    fn write(&mut self, field: Field) -> Result<(), u8>;
}

pub fn ask(calls: &mut impl Calls, call: &Call) -> Said {
    match call {
        Call::Open(opening) => Said::done(calls.open(opening)),
        Call::DryRun(request) => Said::with(calls.dry_run(*request), Said::Offer),
        Call::Book(request, stated) => Said::done(calls.book(*request, *stated)),
        Call::List => Said::with(calls.list(), Said::Listed),
        Call::Room => Said::with(calls.room(), Said::Room),
        Call::Write(field) => Said::done(calls.write(*field)),
    }
}
