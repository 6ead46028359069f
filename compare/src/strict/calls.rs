//! The calls under test, of whichever manager.

use super::queues::calls as queues;
use super::terms::{Call, Field, Opening};
use crate::editions::calls as rated;
use crate::modes::calls as poly;
use crate::trial::answers::Said;

/// One manager's calls on the record that is open. A copy has a record of its own.
pub trait Calls: Clone {
    fn ask(&mut self, call: &Call) -> Said;
}

/// The four managers by the calls that they have: two that name an edition, one
/// that names a mode, and the queues.
#[derive(Clone)]
pub enum OneOf<R, P, Q> {
    Rated(R),
    Poly(P),
    Queue(Q),
}

impl<R, P, Q> Calls for OneOf<R, P, Q>
where
    R: rated::Calls + Clone,
    P: poly::Calls + Clone,
    Q: queues::Calls + Clone,
{
    fn ask(&mut self, call: &Call) -> Said {
        match self {
            OneOf::Rated(calls) => ask_rated(calls, call),
            OneOf::Poly(calls) => ask_poly(calls, call),
            OneOf::Queue(calls) => ask_queue(calls, call),
        }
    }
}

/// Dialogues ask no manager for what it does not have.
fn not_asked(call: &Call) -> ! {
    panic!("no call of this manager: {call}");
}

fn ask_rated(calls: &mut impl rated::Calls, call: &Call) -> Said {
    match call {
        Call::Open(Opening::Rated(opening)) => Said::done(calls.open(opening)),
        Call::DryRun(request) => Said::with(calls.dry_run(*request), Said::Offer),
        Call::Book(request, stated) => Said::done(calls.book(*request, *stated)),
        Call::List => Said::with(calls.list(), Said::Listed),
        Call::Room => Said::with(calls.room(), Said::Room),
        Call::Write(Field::Rated(field)) => Said::done(calls.write(*field)),
        call => not_asked(call),
    }
}

fn ask_poly(calls: &mut impl poly::Calls, call: &Call) -> Said {
    match call {
        Call::Open(Opening::Poly(opening)) => Said::done(calls.open(opening)),
        Call::DryRun(request) => Said::with(calls.dry_run(*request), Said::Offer),
        Call::Book(request, stated) => Said::done(calls.book(*request, *stated)),
        Call::List => Said::with(calls.list(), Said::Listed),
        Call::Write(Field::Poly(field)) => Said::done(calls.write(*field)),
        call => not_asked(call),
    }
}

fn ask_queue(calls: &mut impl queues::Calls, call: &Call) -> Said {
    match call {
        Call::Open(Opening::Queue(opening)) => Said::done(calls.open(opening)),
        Call::DryRun(request) => Said::with(calls.dry_run(*request), Said::Offer),
        Call::Book(request, stated) => Said::done(calls.book(*request, *stated)),
        Call::List => Said::with(calls.list(), Said::Queued),
        Call::Enqueue(load) => Said::done(calls.enqueue(*load)),
        Call::Dequeue(load) => Said::done(calls.dequeue(*load)),
        Call::Write(Field::Queue(field)) => Said::done(calls.write(*field)),
        call => not_asked(call),
    }
}
