//! Which delay a date has, under either rule.

use super::LATER;
use crate::frames::{Dates, Span, Window};

/// A record's delays, and the rule by which they are looked up.
#[derive(Clone, Copy, Debug)]
pub struct Delays<'a> {
    pub rule: u64,
    pub window: Window,
    pub list: &'a [Span],
}

impl Delays<'_> {
    /// A send's four dates; 8 where a lookup finds no segment.
    pub fn dates(&self, start: i64, end: i64) -> Result<Dates, u8> {
        let first = self.place(start, 0).ok_or(8)?;
        let second = self.place(end, first).ok_or(8)?;
        let received = |date, place: usize| date + self.list[place].value;
        Ok(Dates([
            start,
            end,
            received(start, first),
            received(end, second),
        ]))
    }

    /// Rule 2: "the segment with start <= date < end, and at the window's end the
    /// last segment", each date by itself. Rule 1: "the first segment whose end is
    /// not before the date", from the given place on, as "the end's lookup goes on
    /// from the start's".
    pub fn place(&self, date: i64, from: usize) -> Option<usize> {
        if self.rule != LATER {
            return (from..self.list.len()).find(|place| self.list[*place].end >= date);
        }
        match date == self.window.end {
            true => self.list.len().checked_sub(1),
            false => self
                .list
                .iter()
                .position(|delay| delay.start <= date && date < delay.end),
        }
    }
}
