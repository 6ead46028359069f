//! Demand 3, and R-5's last sentence of it, tick by tick on the answers of the
//! calls under test, and what follows from R-7's flag. The reading has no part in
//! it.

use super::reading::capacity::{Ticks, is_countable};
use super::terms::{Opening, SECOND};
use crate::frames::{Dates, Span, Window};
use crate::strict::flag::ON;

/// What has been booked since a fresh opening of the free-volume manager.
pub struct Sums {
    edition: u64,
    is_strict: bool,
    window: Window,
    ticks: Ticks,
    highest: u128,
    /// For each tick of the window, whether it is in an accepted send.
    is_booked: Vec<bool>,
    sizes: u128,
    bookings: u128,
}

impl Sums {
    /// The opening was accepted; `None` where its window is too long.
    pub fn of(opening: &Opening) -> Option<Self> {
        let window = opening.contact.window;
        let rates = &opening.contact.rates;
        let highest = rates.iter().map(|rate| rate.value as u128).max()?;
        is_countable(window).then(|| Sums {
            edition: opening.edition,
            is_strict: opening.strict == ON,
            window,
            ticks: Ticks::of(window, rates),
            highest,
            is_booked: vec![false; (window.end - window.start) as usize],
            sizes: 0,
            bookings: 0,
        })
    }

    /// A booking that was accepted with these dates.
    pub fn book(&mut self, size: i64, dates: Dates) -> Result<(), String> {
        let Dates([start, end, ..]) = dates;
        self.test_send(start, end)?;
        for tick in start..end {
            let place = self.place(tick);
            if self.is_booked[place] {
                return Err(format!("tick {tick} is booked twice"));
            }
            self.is_booked[place] = true;
        }
        self.sizes += size as u128;
        self.bookings += 1;
        self.test_count()?;
        self.test_sizes()
    }

    fn place(&self, tick: i64) -> usize {
        (tick - self.window.start) as usize
    }

    /// That u is after the start follows from sizes of 1 and more; and under the
    /// flag a send without length is not booked.
    fn test_send(&self, start: i64, end: i64) -> Result<(), String> {
        if !(self.window.start <= start && start <= end && end <= self.window.end) {
            return Err(format!("send {start},{end} is not in the window"));
        }
        if (self.edition == SECOND || self.is_strict) && start == end {
            return Err(format!("send {start},{end} has no length"));
        }
        Ok(())
    }

    /// Under the flag each booking has a tick of its own.
    fn test_count(&self) -> Result<(), String> {
        let ticks = self.is_booked.len();
        if self.is_strict && self.bookings > ticks as u128 {
            return Err(format!("{} bookings in {ticks} ticks", self.bookings));
        }
        Ok(())
    }

    /// Capacity and sizes, in the edition's order, differ by at most R - 1 for
    /// each booking.
    fn test_sizes(&self) -> Result<(), String> {
        let booked = self.window.start..self.window.end;
        let carried: u128 = booked
            .filter(|tick| self.is_booked[self.place(*tick)])
            .map(|tick| self.ticks.rate(tick))
            .sum();
        let (lower, upper) = match self.edition == SECOND {
            true => (self.sizes, carried),
            false => (carried, self.sizes),
        };
        let most = self.highest.saturating_sub(1) * self.bookings;
        if lower <= upper && upper - lower <= most {
            return Ok(());
        }
        Err(format!(
            "sizes {} and capacity {carried} after {} bookings at rates up to {}",
            self.sizes, self.bookings, self.highest
        ))
    }

    /// What is listed free, and the room, after the bookings so far.
    pub fn see(&self, listed: &[Span], room: i64) -> Result<(), String> {
        self.test_order(listed)?;
        for span in listed {
            self.test_listed(*span)?;
        }
        let sum: i128 = listed.iter().map(|span| i128::from(span.value)).sum();
        if sum != i128::from(room) {
            return Err(format!("room {room}, but the listed volumes' sum is {sum}"));
        }
        Ok(())
    }

    /// "1 to 64 segments in the window, each start <= end, each end strictly
    /// before the next start".
    fn test_order(&self, listed: &[Span]) -> Result<(), String> {
        let is_in = |span: &Span| {
            self.window.start <= span.start && span.start <= span.end && span.end <= self.window.end
        };
        let is_apart = |pair: &[Span]| pair[0].end < pair[1].start;
        let keeps = (1..=64).contains(&listed.len())
            && listed.iter().all(is_in)
            && listed.windows(2).all(is_apart);
        keeps
            .then_some(())
            .ok_or("what is listed is no free list".into())
    }

    fn test_listed(&self, span: Span) -> Result<(), String> {
        let Span { start, end, value } = span;
        let shared = (start..end).find(|tick| self.is_booked[self.place(*tick)]);
        if let Some(tick) = shared {
            return Err(format!("tick {tick} is booked and listed free"));
        }
        let exact = self.ticks.between(start, end) as i128;
        let fits = match self.edition == SECOND {
            true => i128::from(value) == exact,
            false => (0..=exact).contains(&value.into()),
        };
        match fits {
            true => Ok(()),
            false => Err(format!("[{start},{end}) lists {value} and carries {exact}")),
        }
    }
}
