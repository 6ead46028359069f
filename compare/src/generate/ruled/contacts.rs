//! Contacts whose delays change often, and delay lists that do not cover.

use crate::frames::{COEFFICIENTS, PolyOpening, RatedOpening, Ruled, Span, Window};
use crate::generate::dialogues::Manager;
use crate::generate::openings::{self, Scale, delay, loose_delays, placed, tiled};
use crate::generate::rng::Rng;
use crate::limits::{MAX_COEFFICIENT, MAX_DATE, MAX_DELAYS, MAX_RATE, MAX_RATES, MAX_VOLUME};
use crate::modes::reading::capacity::Capacity;
use crate::modes::terms::{Opening, PORTED};
use crate::rules::{EARLIER, LATER};
use crate::strict::flag::OFF;

/// Of so many openings one is under rule 1.
const EARLIER_SHARE: usize = 3;
/// Windows mostly have so few ticks that a boundary is never far.
const SHORT: i64 = 24;
const FEW_RATES: usize = 3;

/// What is open, as the dialogue knows it.
pub struct Contact {
    pub opening: Ruled,
    pub window: Window,
    pub delays: Vec<Span>,
    /// Where a delay begins or ends, and the window.
    pub boundaries: Vec<i64>,
}

impl Contact {
    pub fn of(opening: Ruled) -> Self {
        let (window, delays) = match &opening {
            Ruled::Free(contact) | Ruled::Priority(contact) => (contact.window, &contact.delays),
            Ruled::Poly(contact) => (contact.window, &contact.delays),
        };
        let delays = delays.clone();
        let ends = delays.iter().flat_map(|delay| [delay.start, delay.end]);
        let mut boundaries: Vec<i64> = ends.chain([window.start, window.end]).collect();
        boundaries.sort_unstable();
        boundaries.dedup();
        Contact {
            opening,
            window,
            delays,
            boundaries,
        }
    }

    /// What of [from, to) is in the window carries so much. The opening was
    /// accepted, so that the polynomial is in its range.
    pub fn carried(&self, from: i64, to: i64) -> i64 {
        let Window { start, end } = self.window;
        let (from, to) = (from.clamp(start, end), to.clamp(start, end));
        match &self.opening {
            Ruled::Free(contact) | Ruled::Priority(contact) => {
                openings::capacity(&contact.rates, from, to)
            }
            Ruled::Poly(contact) => polynomial(contact, from, to),
        }
    }
}

fn polynomial(contact: &PolyOpening, from: i64, to: i64) -> i64 {
    let capacity = Capacity::of(&Opening {
        mode: PORTED,
        rule: EARLIER,
        strict: OFF,
        contact: contact.clone(),
    });
    let carried = capacity.between(from, to).floor();
    carried.clamp(i64::MIN.into(), i64::MAX.into()) as i64
}

pub fn rule(rng: &mut Rng) -> u8 {
    let rule = match rng.once_in(EARLIER_SHARE) {
        true => EARLIER,
        false => LATER,
    };
    rule as u8
}

// ---------------------------------------------------------------------------
// Openings

/// Mostly short; now and then of any scale, at the limits too. The polynomial
/// manager's delays mostly cover the window.
pub fn opening(rng: &mut Rng, manager: Manager) -> Ruled {
    let is_short = !rng.once_in(5);
    let scale = openings::scale(rng);
    match manager {
        Manager::Priority => Ruled::Priority(rated(rng, is_short, scale)),
        Manager::Poly => Ruled::Poly(poly(rng, is_short, scale)),
        _ => Ruled::Free(rated(rng, is_short, scale)),
    }
}

/// One rate over a window with room for 64 listed segments.
pub fn roomy(rng: &mut Rng, manager: Manager) -> Ruled {
    match manager {
        Manager::Priority => Ruled::Priority(openings::even_rated(rng)),
        Manager::Poly => Ruled::Poly(openings::even_poly(rng)),
        _ => Ruled::Free(openings::even_rated(rng)),
    }
}

fn rated(rng: &mut Rng, is_short: bool, scale: Scale) -> RatedOpening {
    if !is_short {
        return openings::rated(rng, scale);
    }
    let window = short(rng);
    let most = rng.pick(&[1, FEW_RATES, MAX_RATES]);
    RatedOpening {
        window,
        rates: tiled(rng, window, most, |rng, _| rate(rng)),
        delays: delays(rng, window),
    }
}

fn poly(rng: &mut Rng, is_short: bool, scale: Scale) -> PolyOpening {
    let mut contact = match is_short {
        true => short_poly(rng),
        false => openings::poly(rng, scale),
    };
    contact.delays = match rng.once_in(4) {
        true => loose_delays(rng, contact.window),
        false => delays(rng, contact.window),
    };
    contact
}

fn short_poly(rng: &mut Rng) -> PolyOpening {
    let window = short(rng);
    let mut coefficients = [0; COEFFICIENTS];
    coefficients[0] = rng.between(1, 9);
    if rng.once_in(2) {
        coefficients[1] = rng.between(-1, 4);
    }
    if rng.once_in(6) {
        coefficients[2] = rng.between(0, 6);
    }
    PolyOpening {
        window,
        offset: rng.pick(&[window.start, window.start, window.end, 0]),
        coefficients,
        delays: Vec::new(),
    }
}

fn short(rng: &mut Rng) -> Window {
    let length = rng.between(1, SHORT);
    placed(rng, length)
}

/// Ticks that carry nothing make the ends of sends differ from u.
fn rate(rng: &mut Rng) -> i64 {
    match rng.below(8) {
        0 => 0,
        1..4 => 1,
        4..6 => rng.between(2, 4),
        _ => rng.between(1, 12),
    }
}

/// Mostly as many as there can be; neighbours mostly differ.
fn delays(rng: &mut Rng, window: Window) -> Vec<Span> {
    tiled(rng, window, MAX_DELAYS, |rng, _| delay(rng))
}

/// A rate, the volume or a coefficient outside its limits: 6 or 11. Every second
/// one has delays that do not cover too: 5 comes after 6, and before 11.
pub fn too_large(rng: &mut Rng, manager: Manager) -> Ruled {
    let mut opening = match rng.once_in(2) {
        true => with_gap(rng, manager),
        false => opening(rng, manager),
    };
    match &mut opening {
        Ruled::Free(contact) | Ruled::Priority(contact) => {
            let place = rng.below(contact.rates.len());
            contact.rates[place].value = rng.pick(&[-1, MAX_RATE, MAX_RATE + 1, MAX_VOLUME]);
        }
        Ruled::Poly(contact) => {
            let power = rng.below(COEFFICIENTS);
            contact.coefficients[power] = rng.pick(&[MAX_COEFFICIENT + 1, MAX_COEFFICIENT]);
        }
    }
    opening
}

// ---------------------------------------------------------------------------
// Delays that do not cover

/// An opening with one fault in how its delays cover the window: 5, unless it is
/// the polynomial manager's under rule 1.
pub fn with_gap(rng: &mut Rng, manager: Manager) -> Ruled {
    let mut opening = opening(rng, manager);
    let (window, list) = match &mut opening {
        Ruled::Free(contact) | Ruled::Priority(contact) => (contact.window, &mut contact.delays),
        Ruled::Poly(contact) => (contact.window, &mut contact.delays),
    };
    *list = nearly_covering(rng, window);
    opening
}

pub fn nearly_covering(rng: &mut Rng, window: Window) -> Vec<Span> {
    let mut list = delays(rng, window);
    loosen(rng, &mut list, window);
    list
}

fn loosen(rng: &mut Rng, list: &mut Vec<Span>, window: Window) {
    let place = rng.below(list.len());
    let last = list.len() - 1;
    let Span { start, end, .. } = list[place];
    match rng.below(12) {
        0 => list.clear(),
        1 => drop(list.remove(place)),
        2 => list[0].start += 1,
        3 => list[last].end -= 1,
        4 => list[last].end = (window.end + 1).min(MAX_DATE),
        5 => list[0].start = (window.start - 1).max(0),
        6 => list[place].end = end + 1,
        7 => list[place].start = start + 1,
        8 => list[place].end = start,
        9 => list.reverse(),
        10 => list.insert(place, list[place]),
        _ => cut_up(list, place),
    }
}

/// One segment more than there can be, by single ticks where there are enough.
fn cut_up(list: &mut Vec<Span>, place: usize) {
    while list.len() <= MAX_DELAYS {
        let span = list[place];
        list.insert(place, span);
        if span.end - span.start > 1 {
            list[place].end = span.start + 1;
            list[place + 1].start = span.start + 1;
        }
    }
}
