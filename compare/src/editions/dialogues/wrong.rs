//! Contacts that are refused: one to three faults of document 01's kinds. Some
//! faults cancel.

use super::contacts::of_total;
use crate::frames::{RatedOpening, Span, Window};
use crate::generate::rng::Rng;
use crate::limits::{MAX_DATE, MAX_DELAY, MAX_LENGTH, MAX_RATE, MAX_RATES, MAX_VOLUME};

pub fn spoil(rng: &mut Rng, contact: &mut RatedOpening) {
    for _ in 0..rng.between(1, 3) {
        match rng.below(6) {
            0 => contact.window = wrong_window(rng, contact.window),
            1 => spoil_list(rng, &mut contact.rates),
            2 => spoil_list(rng, &mut contact.delays),
            3 => spoil_value(rng, &mut contact.rates, MAX_RATE),
            4 => spoil_value(rng, &mut contact.delays, MAX_DELAY),
            _ => contact.rates = of_total(whole(contact.window), MAX_VOLUME + 1),
        }
    }
}

/// A window of which rates can be made, even where it is a wrong one.
fn whole(window: Window) -> Window {
    match (1..=MAX_LENGTH).contains(&window.end.saturating_sub(window.start)) {
        true => window,
        false => Window { start: 0, end: 9 },
    }
}

fn wrong_window(rng: &mut Rng, window: Window) -> Window {
    let Window { start, end } = window;
    let (start, end) = match rng.below(7) {
        0 => (start, start),
        1 => (end, start),
        2 => (start, start.saturating_add(MAX_LENGTH + 1)),
        3 => (start, MAX_DATE + 1),
        4 => (MAX_DATE, MAX_DATE + 1),
        5 => (-1, end),
        _ => (start, i64::MAX),
    };
    Window { start, end }
}

fn spoil_value(rng: &mut Rng, list: &mut [Span], most: i64) {
    if list.is_empty() {
        return;
    }
    let place = rng.below(list.len());
    list[place].value = rng.pick(&[-1, i64::MIN, most + 1, i64::MAX]);
}

fn spoil_list(rng: &mut Rng, list: &mut Vec<Span>) {
    if list.is_empty() {
        return;
    }
    let place = rng.below(list.len());
    let Span { start, end, .. } = list[place];
    match rng.below(9) {
        0 => list.clear(),
        1 => drop(list.remove(place)),
        2 => repeat(list, place),
        3 => list[place].end = start,
        4 => (list[place].start, list[place].end) = (end, start),
        5 => list[place].start = start.saturating_add(1),
        6 => list[place].end = end.saturating_sub(1),
        7 => list[place].end = end.saturating_add(1),
        _ => list.reverse(),
    }
}

/// One segment too many, by single ticks where there are enough of them, so
/// that the count is all that is wrong.
fn repeat(list: &mut Vec<Span>, place: usize) {
    while list.len() <= MAX_RATES {
        let span = list[place];
        list.insert(place, span);
        if span.end.saturating_sub(span.start) > 1 {
            list[place].end = span.start + 1;
            list[place + 1].start = span.start + 1;
        }
    }
}
