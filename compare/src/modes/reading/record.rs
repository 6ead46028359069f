//! A record as plain vectors, and what is done with it.

use super::capacity::Capacity;
use super::fraction::Fraction;
use super::opening;
use super::search::{self, Stretch};
use crate::frames::{Dates, Load, Request, Span, Window};
use crate::limits::{MAX_DATE, MAX_LISTED, MAX_PRIORITY, MAX_SIZE};
use crate::modes::terms::Opening;
use crate::rules::lookup::Delays;
use crate::strict::flag;

/// A send, and where in the list it begins.
#[derive(Clone, Copy, Debug, PartialEq, Eq)]
pub struct Send {
    pub place: usize,
    pub start: i64,
    pub end: i64,
}

/// The record keeps what it was opened with, its mode, its rule and its flag
/// first.
#[derive(Clone, Debug)]
pub struct Record {
    pub opening: Opening,
    pub list: Vec<Span>,
}

impl Record {
    /// "Openings list the whole window, .. or bare."
    pub fn opened(opening: &Opening) -> Self {
        let Window { start, end } = opening.contact.window;
        Record {
            opening: opening.clone(),
            list: vec![bare(start, end)],
        }
    }

    pub fn capacity(&self) -> Capacity {
        Capacity::of(&self.opening)
    }

    pub fn window(&self) -> Window {
        self.opening.contact.window
    }

    pub fn dry_run(&self, request: Request) -> Result<Dates, u8> {
        self.test()?;
        test_request(request)?;
        let send = self.find(request).ok_or(7)?;
        self.dates(send)
    }

    pub fn book(&mut self, request: Request, stated: Dates) -> Result<(), u8> {
        self.test()?;
        test_request(request)?;
        if self.dry_run(request) != Ok(stated) {
            return Err(9);
        }
        flag::test(self.opening.strict, stated)?;
        let send = self.find(request).ok_or(9)?;
        let list = self.cut(send);
        if list.len() > MAX_LISTED {
            return Err(10);
        }
        self.list = list;
        Ok(())
    }

    /// "all that the opening tests holds", under the mode and the rule that the
    /// record names.
    /// What is listed comes from bookings, and keeps its rules.
    pub fn test(&self) -> Result<(), u8> {
        match opening::refusal(&self.opening) {
            None => Ok(()),
            Some(_) => Err(1),
        }
    }

    /// Segments that end before the asked time are skipped, and one "that has no
    /// end for this bundle is passed over".
    pub fn find(&self, request: Request) -> Option<Send> {
        let segments = self.list.iter().enumerate();
        let mut left = segments.filter(|(_, span)| span.end >= request.time);
        left.find_map(|(place, span)| {
            let start = span.start.max(request.time);
            let end = self.end(*span, start, request.load.size)?;
            Some(Send { place, start, end })
        })
    }

    fn end(&self, span: Span, from: i64, size: i64) -> Option<i64> {
        let capacity = self.capacity();
        let stretch = Stretch {
            start: span.start,
            end: span.end,
            from,
        };
        let size = Fraction::whole(size);
        search::end(stretch, size, |date| capacity.between(from, date))
    }

    /// "Booking at a segment's start: start becomes the end sent .. Otherwise the
    /// segment is cut at the send start ..; a right part follows only if send
    /// start and end differ, and it may be empty."
    pub fn cut(&self, send: Send) -> Vec<Span> {
        let old = self.list[send.place];
        let mut parts = Vec::new();
        if send.start != old.start {
            parts.push(bare(old.start, send.start));
        }
        if send.start == old.start || send.start != send.end {
            parts.push(bare(send.end, old.end));
        }
        let mut list = self.list.clone();
        list.splice(send.place..=send.place, parts);
        list
    }

    pub fn dates(&self, send: Send) -> Result<Dates, u8> {
        self.looked_up().dates(send.start, send.end)
    }

    pub fn looked_up(&self) -> Delays<'_> {
        Delays {
            rule: self.opening.rule,
            window: self.window(),
            list: &self.opening.contact.delays,
        }
    }
}

/// A listed segment; the polynomial manager lists no volumes.
fn bare(start: i64, end: i64) -> Span {
    let value = 0;
    Span { start, end, value }
}

pub fn test_request(request: Request) -> Result<(), u8> {
    let in_limits = (0..=MAX_DATE).contains(&request.time) && load_in_limits(request.load);
    if in_limits { Ok(()) } else { Err(2) }
}

pub fn load_in_limits(load: Load) -> bool {
    (1..=MAX_SIZE).contains(&load.size) && load.priority <= MAX_PRIORITY
}
