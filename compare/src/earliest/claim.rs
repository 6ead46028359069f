//! Document 02's R-8, read tick by tick.
//!
//! It goes by the contact's window and rates and by what is booked on each tick,
//! and by document 01's end rule in its exact terms. Nothing is searched by
//! segments: every tick is tried as a start, in order, and every instant of its
//! send is looked at. That is slow and has little to go wrong in it.

use std::ops::Range;

use crate::frames::{Load, RatedOpening, Request, Span, Window};

/// Windows of more ticks are not gone through: each start goes over the ticks
/// after it.
pub const MAX_TICKS: i64 = 4_096;

/// When a send starts and ends.
#[derive(Clone, Copy, Debug, PartialEq, Eq)]
pub struct Place {
    pub start: i64,
    pub end: i64,
}

/// A contact's window with the rate of each of its ticks.
pub struct Contact {
    window: Window,
    rates: Vec<i64>,
}

impl Contact {
    /// `None` where the window has more than [`MAX_TICKS`] ticks. The opening
    /// is one that document 01 accepts.
    pub fn of(opening: &RatedOpening) -> Option<Self> {
        let window = opening.window;
        (window.end - window.start <= MAX_TICKS).then(|| Contact {
            window,
            rates: by_tick(window, &opening.rates),
        })
    }

    /// Document 01's end "in exact terms", with the window's end as deadline:
    /// u is the first tick by which the capacity from the start reaches the
    /// size. As u is in the window, neither it nor the tick before is after the
    /// deadline.
    pub fn end_from(&self, start: i64, size: i64) -> Option<i64> {
        let mut capacity = 0;
        for tick in start..self.window.end {
            capacity += self.rates[self.place_of(tick)];
            let u = tick + 1;
            if capacity == size {
                return Some(u);
            }
            if capacity > size {
                return Some(u - 1);
            }
        }
        None
    }

    /// The ticks that are not before the asked time and inside the window.
    pub fn starts(&self, asked: i64) -> Range<i64> {
        asked.max(self.window.start)..self.window.end
    }

    /// Whether there is a start with an end, whatever is booked.
    pub fn has_room(&self, request: Request) -> bool {
        self.starts(request.time)
            .any(|start| self.end_from(start, request.load.size).is_some())
    }

    fn place_of(&self, tick: i64) -> usize {
        (tick - self.window.start) as usize
    }
}

/// A contact with what is booked on each of its ticks.
pub struct Booked<'a> {
    contact: &'a Contact,
    values: Vec<i64>,
}

impl<'a> Booked<'a> {
    /// The list covers the window without a gap.
    pub fn on(contact: &'a Contact, listed: &[Span]) -> Self {
        Booked {
            contact,
            values: by_tick(contact.window, listed),
        }
    }

    pub fn value_at(&self, tick: i64) -> i64 {
        self.values[self.contact.place_of(tick)]
    }

    pub fn is_below(&self, tick: i64, priority: u8) -> bool {
        self.value_at(tick) < i64::from(priority)
    }

    /// The claim: the least start whose send is free for the priority, with its
    /// end, and `None` exactly if there is no such start.
    pub fn least(&self, request: Request) -> Option<Place> {
        self.contact
            .starts(request.time)
            .find_map(|start| self.from(start, request.load))
    }

    /// The send from this start, if it has an end and every instant of it, and
    /// the start itself, is booked below the priority. The start is looked at
    /// first, as this alone often decides.
    fn from(&self, start: i64, load: Load) -> Option<Place> {
        if !self.is_below(start, load.priority) {
            return None;
        }
        let end = self.contact.end_from(start, load.size)?;
        (start..end)
            .all(|instant| self.is_below(instant, load.priority))
            .then_some(Place { start, end })
    }
}

/// For each tick of the window the value of the segment in which it is.
fn by_tick(window: Window, spans: &[Span]) -> Vec<i64> {
    let value_at = |tick| {
        let holds = |span: &&Span| span.start <= tick && tick < span.end;
        spans.iter().find(holds).expect("no gap").value
    };
    (window.start..window.end).map(value_at).collect()
}
