//! What R-6 says of every end in mode 2, held on the answers of the calls under
//! test: "its end has enough exact capacity and .. one tick earlier has less,
//! unless it stopped on equality, in which case it is exactly the size".

use super::reading::capacity::Capacity;
use super::reading::fraction::Fraction;
use super::terms::{EXACT, Opening};
use super::ticks::Ticks;
use crate::frames::{Dates, Window};

/// Of a record in mode 2 that keeps its rules.
pub struct Claims {
    window: Window,
    capacity: Capacity,
    ticks: Option<Ticks>,
}

/// What was held of an offer.
#[derive(Clone, Copy, Debug, PartialEq, Eq)]
pub struct Held {
    /// The capacity is exactly the size; else one tick earlier has less.
    pub is_equal: bool,
    /// The capacity was worked out tick by tick too.
    pub by_ticks: bool,
    /// No earlier tick has enough.
    pub is_first: bool,
}

impl Claims {
    /// The opening was accepted; `None` in mode 1, of which nothing is claimed.
    pub fn of(opening: &Opening) -> Option<Self> {
        (opening.mode == EXACT).then(|| Claims {
            window: opening.contact.window,
            capacity: Capacity::of(opening),
            ticks: Ticks::of(opening),
        })
    }

    pub fn hold(&self, size: i64, offered: Dates) -> Result<Held, String> {
        let Dates([start, end, ..]) = offered;
        let Window {
            start: low,
            end: high,
        } = self.window;
        if !(low <= start && start < end && end <= high) {
            return Err(format!("send {start},{end} is empty or not in the window"));
        }
        let size = Fraction::whole(size);
        let is_equal = self.hold_end(size, start, end)?;
        Ok(Held {
            is_equal,
            by_ticks: self.hold_ticks(start, end)?,
            is_first: self.hold_first(size, start, end)?,
        })
    }

    /// Whether the capacity is exactly the size.
    fn hold_end(&self, size: Fraction, start: i64, end: i64) -> Result<bool, String> {
        let carried = self.capacity.between(start, end);
        if carried < size {
            return Err(format!("send {start},{end} carries {carried}"));
        }
        let before = self.capacity.between(start, end - 1);
        if carried != size && before >= size {
            return Err(format!("send {start},{} carries {before}", end - 1));
        }
        Ok(carried == size)
    }

    /// Whether the capacity could be worked out tick by tick.
    fn hold_ticks(&self, start: i64, end: i64) -> Result<bool, String> {
        let Some(ticks) = &self.ticks else {
            return Ok(false);
        };
        let (one, other) = (self.capacity.between(start, end), ticks.between(start, end));
        if one != other {
            return Err(format!(
                "send {start},{end} carries {one}; by ticks {other}"
            ));
        }
        Ok(true)
    }

    /// Whether there is a first tick to speak of: each tick carries something.
    fn hold_first(&self, size: Fraction, start: i64, end: i64) -> Result<bool, String> {
        let Some(ticks) = self.ticks.as_ref().filter(|ticks| ticks.is_rising) else {
            return Ok(false);
        };
        let early = (start..end).find(|tick| ticks.between(start, *tick) >= size);
        match early {
            Some(tick) => Err(format!("send {start},{tick} has enough before {end}")),
            None => Ok(true),
        }
    }
}
