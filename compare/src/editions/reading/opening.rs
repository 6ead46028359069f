//! Which openings are refused, and with which number: R-5's, R-4's and R-7's 2
//! before all else, then document 01's 3, 4, 6, 5.

use crate::editions::terms::{Opening, is_edition};
use crate::frames::{Span, Window};
use crate::limits::{MAX_DATE, MAX_LENGTH, MAX_RATE, MAX_RATES, MAX_VOLUME};
use crate::rules::cover::{covers, delays_cover};
use crate::rules::is_rule;
use crate::strict::flag::is_flag;

pub fn refusal(opening: &Opening) -> Option<u8> {
    let contact = &opening.contact;
    if !is_edition(opening.edition) || !is_rule(opening.rule) || !is_flag(opening.strict) {
        return Some(2);
    }
    if !window_in_limits(contact.window) {
        return Some(3);
    }
    if !covers(&contact.rates, contact.window, MAX_RATES) {
        return Some(4);
    }
    if !rates_in_limits(&contact.rates) {
        return Some(6);
    }
    if !delays_cover(&contact.delays, contact.window) {
        return Some(5);
    }
    None
}

pub fn window_in_limits(window: Window) -> bool {
    let dates = 0..=MAX_DATE;
    dates.contains(&window.start)
        && dates.contains(&window.end)
        && window.start < window.end
        && window.end - window.start <= MAX_LENGTH
}

/// Each rate first: a sum over rates outside their limits might not be held.
fn rates_in_limits(rates: &[Span]) -> bool {
    rates
        .iter()
        .all(|rate| (0..=MAX_RATE).contains(&rate.value))
        && total(rates) <= MAX_VOLUME as u128
}

fn total(rates: &[Span]) -> u128 {
    let volume = |rate: &Span| rate.value as u128 * (rate.end - rate.start) as u128;
    rates.iter().map(volume).sum()
}
