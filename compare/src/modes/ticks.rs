//! The true integral a second way: tick by tick, from the rates at ticks and at
//! half ticks, by Simpson's rule, which is exact for cubics. The reading's
//! antiderivative has no part in it.

use super::reading::fraction::Fraction;
use super::terms::Opening;
use crate::frames::{PolyOpening, Window};

/// Longer windows are not gone through tick by tick.
pub const MOST_TICKS: i64 = 512;

pub struct Ticks {
    start: i64,
    /// The capacity from the window's start to each of its ticks.
    sums: Vec<Fraction>,
    /// The rate is above zero at every tick and not below zero at every half
    /// tick: then each tick carries something.
    pub is_rising: bool,
}

impl Ticks {
    /// The opening was accepted in mode 2; `None` where its window is too long.
    pub fn of(opening: &Opening) -> Option<Self> {
        let contact = &opening.contact;
        let Window { start, end } = contact.window;
        if end - start > MOST_TICKS {
            return None;
        }
        let mut ticks = Ticks {
            start,
            sums: vec![Fraction::ZERO],
            is_rising: rate(contact, 2 * start) > Fraction::ZERO,
        };
        for tick in start..end {
            ticks.add(contact, tick);
        }
        Some(ticks)
    }

    fn add(&mut self, contact: &PolyOpening, tick: i64) {
        let [first, middle, last] = [0, 1, 2].map(|half| rate(contact, 2 * tick + half));
        let carried = Fraction::of(1, 6) * (first + Fraction::whole(4) * middle + last);
        let before = self.sums[self.sums.len() - 1];
        self.sums.push(before + carried);
        self.is_rising &= middle >= Fraction::ZERO && last > Fraction::ZERO;
    }

    pub fn between(&self, from: i64, to: i64) -> Fraction {
        let to_date = |date: i64| self.sums[(date - self.start) as usize];
        to_date(to) - to_date(from)
    }
}

/// c0 + c1 t + c2 t^2 + c3 t^3 at a number of half ticks.
fn rate(contact: &PolyOpening, halves: i64) -> Fraction {
    let offset = 2 * i128::from(contact.offset);
    let distance = Fraction::of(i128::from(halves) - offset, 2);
    let mut value = Fraction::ZERO;
    for coefficient in contact.coefficients.iter().rev() {
        value = value * distance + Fraction::whole(*coefficient);
    }
    value
}
