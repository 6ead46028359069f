//! The library's calls through both doors, for the programs that hold them
//! against a reading of the documents: the manager's own, which tests nothing,
//! and the total one, on a copy of the record. They must say and leave the same.

pub mod poly;
pub mod queue;
pub mod rated;

use std::fmt::Debug;
use std::sync::Once;

use howrekano::{Bundle, DelaySegment, Interval, Manager, Offer, Record, Refusal, VolumeSegment};
use oracle::frames::{Dates, Load, Request, Span, Window};

/// None of document 01's numbers: the doors do not agree, or a refusal has
/// changed the record.
const DOORS: u8 = 0xfe;

/// What is open. A record that breaks its rules is no manager's.
#[derive(Clone, Copy)]
pub enum Held<R: Record> {
    Nothing,
    Whole(Manager<R>),
    Damaged(R),
}

impl<R: Record + Debug> Held<R> {
    /// What an opening has answered by both doors. A refused one keeps what was
    /// open.
    pub fn open(
        &mut self,
        kept: Result<Manager<R>, Refusal>,
        total: Result<R, Refusal>,
    ) -> Result<(), u8> {
        let records = kept.as_ref().map(|manager| *manager.record());
        agreed("openings", records.map_err(|refusal| *refusal), total)?;
        *self = Held::Whole(kept.map_err(Refusal::number)?);
        Ok(())
    }

    /// A call that changes nothing, by both doors.
    pub fn look<T: PartialEq + Debug>(
        &self,
        what: &str,
        kept: impl Fn(&Manager<R>) -> Result<T, Refusal>,
        total: impl Fn(&R) -> Result<T, Refusal>,
    ) -> Result<T, u8> {
        match self {
            Held::Nothing => Err(1),
            Held::Whole(manager) => agreed(what, kept(manager), total(manager.record())),
            Held::Damaged(record) => total(record).map_err(Refusal::number),
        }
    }

    pub fn dry_run(&self, request: Request) -> Result<Dates, u8> {
        let (at, bundle) = asked(request);
        let kept = |manager: &Manager<R>| manager.dry_run(at, bundle);
        let total = |record: &R| record.dry_run(at, bundle);
        Ok(dates(self.look("dry runs", kept, total)?))
    }

    pub fn book(&mut self, request: Request, stated: Dates) -> Result<(), u8> {
        let (at, bundle) = asked(request);
        let offer = offer(stated);
        let kept = |manager: &mut Manager<R>| manager.book(at, bundle, offer);
        let total = |record: &mut R| record.book(at, bundle, offer);
        self.change("bookings", kept, total)
    }

    /// A call that changes the record, by both doors.
    pub fn change(
        &mut self,
        what: &str,
        kept: impl FnOnce(&mut Manager<R>) -> Result<(), Refusal>,
        total: impl FnOnce(&mut R) -> Result<(), Refusal>,
    ) -> Result<(), u8> {
        let before = self.record()?;
        let mut after = before;
        let total = total(&mut after);
        if !is_left_well(total, &before, &after) {
            return fault(&format!("{what} left"), &after, &before);
        }
        match self {
            Held::Whole(manager) => {
                let kept = kept(manager);
                let records = format!("records after {what}");
                agreed(&records, Ok(*manager.record()), Ok(after))?;
                agreed(what, kept, total)
            }
            _ => total.map_err(Refusal::number),
        }
    }

    /// The same record with something else in it is open from now on; 1 if it
    /// breaks its rules by that.
    pub fn rewrite(&mut self, write: impl FnOnce(&mut R)) -> Result<(), u8> {
        let mut record = self.record()?;
        write(&mut record);
        match Manager::from_record(record) {
            Ok(manager) => {
                *self = Held::Whole(manager);
                Ok(())
            }
            Err(refusal) => {
                *self = Held::Damaged(record);
                Err(refusal.number())
            }
        }
    }

    fn record(&self) -> Result<R, u8> {
        match self {
            Held::Nothing => Err(1),
            Held::Whole(manager) => Ok(*manager.record()),
            Held::Damaged(record) => Ok(*record),
        }
    }
}

/// Whether the record is as a call with this answer may leave it.
fn is_left_well<R: Record>(answer: Result<(), Refusal>, before: &R, after: &R) -> bool {
    match answer {
        Ok(()) => after.is_kept(),
        Err(_) => before == after,
    }
}

/// What both doors answer.
pub fn agreed<T: PartialEq + Debug>(
    what: &str,
    kept: Result<T, Refusal>,
    total: Result<T, Refusal>,
) -> Result<T, u8> {
    match kept == total {
        true => total.map_err(Refusal::number),
        false => fault(what, &kept, &total),
    }
}

/// Only the first is told: the dialogue is played again to shorten it.
fn fault<T>(what: &str, one: &impl Debug, other: &impl Debug) -> Result<T, u8> {
    static TOLD: Once = Once::new();
    TOLD.call_once(|| eprintln!("{what}: {one:?}\nand beside it: {other:?}"));
    Err(DOORS)
}

// ---------------------------------------------------------------------------
// The frames' numbers and the library's

/// The 64 bits of a frame's number: a negative one is above every limit.
pub fn word(number: i64) -> u64 {
    number as u64
}

pub fn window(Window { start, end }: Window) -> Interval {
    interval(start, end)
}

fn interval(start: i64, end: i64) -> Interval {
    Interval {
        start: word(start),
        end: word(end),
    }
}

pub fn delay(span: &Span) -> DelaySegment {
    DelaySegment {
        start: word(span.start),
        end: word(span.end),
        delay: word(span.value),
    }
}

/// The first places of a list, for the total door; its whole count goes along.
pub fn placed<T: Copy + Default, const PLACES: usize>(given: &[T]) -> [T; PLACES] {
    std::array::from_fn(|place| given.get(place).copied().unwrap_or_default())
}

fn asked(request: Request) -> (u64, Bundle) {
    (word(request.time), bundle(request.load))
}

pub fn bundle(load: Load) -> Bundle {
    Bundle {
        size: word(load.size),
        priority: load.priority,
    }
}

fn offer(Dates([start, end, from, to]): Dates) -> Offer {
    Offer {
        send: interval(start, end),
        recv: interval(from, to),
    }
}

fn dates(offer: Offer) -> Dates {
    let Offer { send, recv } = offer;
    Dates([send.start, send.end, recv.start, recv.end].map(|date| date as i64))
}

/// A listed segment and its volume.
pub fn volume(segment: &VolumeSegment) -> Span {
    Span {
        start: segment.start as i64,
        end: segment.end as i64,
        value: segment.volume as i64,
    }
}
