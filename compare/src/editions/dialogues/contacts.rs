//! Contacts that open: small ones, tiny ones of which everything can be asked,
//! ones with room for a long list, and ones at the limits.

use crate::frames::{RatedOpening, Span, Window};
use crate::generate::openings::{delay, placed, tiled};
use crate::generate::rng::Rng;
use crate::limits::{MAX_DELAYS, MAX_RATES, MAX_VOLUME};
use crate::trial::scales::{Scale, length};

/// The most rate segments of a small window.
const FEW_RATES: usize = 5;
const FEW_DELAYS: usize = 4;

pub fn contact(rng: &mut Rng, scale: Scale) -> RatedOpening {
    let length = length(rng, scale);
    let window = placed(rng, length);
    let most_delays = match scale {
        Scale::Tiny | Scale::Small => FEW_DELAYS,
        _ => MAX_DELAYS,
    };
    RatedOpening {
        window,
        rates: rates(rng, window, scale),
        delays: tiled(rng, window, most_delays, |rng, _| delay(rng)),
    }
}

fn rates(rng: &mut Rng, window: Window, scale: Scale) -> Vec<Span> {
    match scale {
        Scale::Tiny => tiled(rng, window, FEW_RATES, |rng, _| rng.between(0, 3)),
        Scale::Small => mixed(rng, window, FEW_RATES),
        Scale::Middle => mixed(rng, window, MAX_RATES),
        Scale::Roomy => tiled(rng, window, 2, |rng, _| rng.between(1, 12)),
        Scale::Limit if rng.once_in(3) => of_total(window, MAX_VOLUME),
        Scale::Limit => large(rng, window),
    }
}

/// Rates of a few units, ticks that carry nothing among them; now and then one
/// that takes the total to its limit. `room` is what is left of that.
fn mixed(rng: &mut Rng, window: Window, most: usize) -> Vec<Span> {
    let mut room = MAX_VOLUME;
    tiled(rng, window, most, |rng, part| {
        let length = part.end - part.start;
        let rate = match rng.below(32) {
            0..7 => 0,
            7..12 => 1,
            12..20 => rng.between(2, 5),
            20..25 => 10,
            25..29 => rng.between(1, 30),
            29..31 => rng.between(1, 5_000),
            _ => MAX_VOLUME,
        }
        .min(room / length);
        room -= rate * length;
        rate
    })
}

fn large(rng: &mut Rng, window: Window) -> Vec<Span> {
    let mut room = MAX_VOLUME;
    tiled(rng, window, MAX_RATES, |rng, part| {
        let length = part.end - part.start;
        let most = room / length;
        let rate = match rng.below(5) {
            0 => 0,
            1 => most / 16,
            2 => rng.between(0, most),
            3 => most,
            _ => rng.any_scale(most.max(1)).min(most),
        };
        room -= rate * length;
        rate
    })
}

/// Rates of exactly this total: the last tick takes what is left over.
pub fn of_total(window: Window, total: i64) -> Vec<Span> {
    let Window { start, end } = window;
    let length = end - start;
    let last = |value| Span {
        start: end - 1,
        end,
        value,
    };
    if length == 1 {
        return vec![last(total)];
    }
    let even = total / length;
    let most = Span {
        start,
        end: end - 1,
        value: even,
    };
    vec![most, last(total - even * (length - 1))]
}
