//! What R-7 says, and what follows from it, of the answers of the calls under test,
//! tick by tick where a window is short. The reading has no part in it.

use super::flag::{self, ON, ZERO_LENGTH};
use super::terms::{Manager, Opening};
use crate::editions::sums::Sums;
use crate::editions::terms::SECOND;
use crate::frames::{Dates, Request, Span};

/// "booking it is refused": what is booked under the flag has a length.
pub fn hold_length(strict: u64, Dates([start, end, ..]): Dates) -> Result<bool, String> {
    match strict == ON && start >= end {
        true => Err(format!("send {start},{end} has no length and is booked")),
        false => Ok(strict == ON),
    }
}

/// Whether records of this manager and edition have no offer of zero length, so
/// that 17 is never answered: an edition 2 end is u, after the start as sizes are 1
/// and more, and so is a polynomial's.
pub fn never_empty(manager: Manager, edition: u64) -> bool {
    match manager {
        Manager::Free | Manager::Priority => edition == SECOND,
        Manager::Poly => true,
        Manager::Queue => false,
    }
}

pub fn hold_number(manager: Manager, edition: u64, number: u8) -> Result<(), String> {
    match number == ZERO_LENGTH && never_empty(manager, edition) {
        true => Err("17 where no send is of zero length".into()),
        false => Ok(()),
    }
}

/// Of a record since it was opened fresh.
pub struct Fresh {
    manager: Manager,
    is_strict: bool,
    ticks: i64,
    bookings: i64,
    /// Demand 3 "holds with either".
    sums: Option<Sums>,
}

impl Fresh {
    /// The opening was accepted.
    pub fn of(manager: Manager, opening: &Opening) -> Self {
        let window = opening.window();
        let sums = match opening {
            Opening::Rated(opening) if manager == Manager::Free => Sums::of(opening),
            _ => None,
        };
        Fresh {
            manager,
            is_strict: opening.strict() == ON,
            ticks: window.end - window.start,
            bookings: 0,
            sums,
        }
    }

    /// A booking that was accepted: free-volume bookings share no tick, and under
    /// the flag each has one. Whether there was something to hold.
    pub fn book(&mut self, request: Request, dates: Dates) -> Result<bool, String> {
        self.bookings += 1;
        if let Some(sums) = &mut self.sums {
            sums.book(request.load.size, dates)?;
        }
        let is_bound = self.is_strict && self.manager == Manager::Free;
        match is_bound && self.bookings > self.ticks {
            true => Err(format!(
                "{} bookings in {} ticks",
                self.bookings, self.ticks
            )),
            false => Ok(is_bound),
        }
    }

    /// What is listed free, and the room.
    pub fn see_free(&self, listed: &[Span], room: i64) -> Result<(), String> {
        match &self.sums {
            Some(sums) => sums.see(listed, room),
            None => Ok(()),
        }
    }

    /// "strict records opened fresh never list an empty priority segment". Whether
    /// there was something to hold.
    pub fn see(&self, listed: &[Span]) -> Result<bool, String> {
        if !(self.is_strict && self.manager == Manager::Priority) {
            return Ok(false);
        }
        match listed.iter().find(|span| span.start >= span.end) {
            Some(Span { start, end, value }) => {
                Err(format!("[{start},{end}) {value} is listed and is empty"))
            }
            None => Ok(true),
        }
    }
}

/// Whether a dry run under the flag shows an offer of zero length.
pub fn is_shown(strict: u64, offered: Dates) -> bool {
    strict == ON && flag::has_no_length(offered)
}
