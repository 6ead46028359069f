//! What a contact carries between two dates, and by which tick a size has left:
//! by ticks, and where a window has too many of them by its rate segments.

use crate::frames::{Span, Window};

/// Windows of up to so many ticks are gone through tick by tick.
pub const COUNTABLE: i64 = 4_096;

pub fn is_countable(window: Window) -> bool {
    window.end - window.start <= COUNTABLE
}

#[derive(Clone, Debug)]
pub enum Capacity {
    Ticks(Ticks),
    Segments(Segments),
}

impl Capacity {
    /// The rates cover the window.
    pub fn of(window: Window, rates: &[Span]) -> Self {
        match is_countable(window) {
            true => Capacity::Ticks(Ticks::of(window, rates)),
            false => Capacity::Segments(Segments::of(window, rates)),
        }
    }

    /// The exact capacity of [from, to), which is in the window.
    pub fn between(&self, from: i64, to: i64) -> u128 {
        match self {
            Capacity::Ticks(ticks) => ticks.between(from, to),
            Capacity::Segments(segments) => segments.between(from, to),
        }
    }

    /// Document 01's u: the first tick by which capacity from the start reaches
    /// the size, if the window has one.
    pub fn reaches(&self, start: i64, size: i64) -> Option<i64> {
        match self {
            Capacity::Ticks(ticks) => ticks.reaches(start, size),
            Capacity::Segments(segments) => segments.reaches(start, size),
        }
    }
}

/// The rate in force on each tick.
#[derive(Clone, Debug)]
pub struct Ticks {
    window: Window,
    rates: Vec<u128>,
}

impl Ticks {
    pub fn of(window: Window, rates: &[Span]) -> Self {
        let mut by_tick = Vec::new();
        for tick in window.start..window.end {
            let holds = |rate: &&Span| rate.start <= tick && tick < rate.end;
            let rate = rates.iter().find(holds).expect("no gap");
            by_tick.push(rate.value as u128);
        }
        Ticks {
            window,
            rates: by_tick,
        }
    }

    pub fn rate(&self, tick: i64) -> u128 {
        self.rates[(tick - self.window.start) as usize]
    }

    pub fn between(&self, from: i64, to: i64) -> u128 {
        (from..to).map(|tick| self.rate(tick)).sum()
    }

    pub fn reaches(&self, start: i64, size: i64) -> Option<i64> {
        let mut left = 0;
        for tick in start..self.window.end {
            left += self.rate(tick);
            if left >= size as u128 {
                return Some(tick + 1);
            }
        }
        None
    }
}

/// The rate segments as they are.
#[derive(Clone, Debug)]
pub struct Segments {
    window: Window,
    rates: Vec<Span>,
}

impl Segments {
    pub fn of(window: Window, rates: &[Span]) -> Self {
        Segments {
            window,
            rates: rates.to_vec(),
        }
    }

    pub fn between(&self, from: i64, to: i64) -> u128 {
        let of_one = |rate: &Span| {
            let ticks = (rate.end.min(to) - rate.start.max(from)).max(0);
            rate.value as u128 * ticks as u128
        };
        self.rates.iter().map(of_one).sum()
    }

    /// Capacity never falls from one tick to the next, so halving finds the
    /// least tick.
    pub fn reaches(&self, start: i64, size: i64) -> Option<i64> {
        let has_left = |tick| self.between(start, tick) >= size as u128;
        if !has_left(self.window.end) {
            return None;
        }
        let (mut before, mut by) = (start, self.window.end);
        while by - before > 1 {
            let middle = before + (by - before) / 2;
            match has_left(middle) {
                true => by = middle,
                false => before = middle,
            }
        }
        Some(by)
    }
}
