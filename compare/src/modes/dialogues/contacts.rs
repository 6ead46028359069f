//! Contacts that mostly open: windows of every scale, offsets near and far.

use super::shapes;
use crate::frames::{COEFFICIENTS, PolyOpening, Span, Window};
use crate::generate::openings::{delay, loose_delays, placed, tiled};
use crate::generate::rng::Rng;
use crate::generate::ruled::contacts::nearly_covering;
use crate::limits::{MAX_DATE, MAX_DELAYS};
use crate::modes::terms::Opening;
use crate::trial::choices::Chosen;
use crate::trial::scales::{Scale, length};

/// Of so many openings one has a polynomial at the range rule's limit.
const LIMIT_SHARE: usize = 6;

pub fn opening(rng: &mut Rng, chosen: Chosen, scale: Scale) -> Opening {
    if scale != Scale::Roomy && rng.once_in(LIMIT_SHARE) {
        return at_limit(rng, chosen, scale);
    }
    let window = window(rng, scale);
    let offset = offset(rng, window);
    let mut opening = bare(rng, chosen, window, offset);
    let shape = shapes::shape(rng, window.end - window.start, scale);
    shapes::settle(rng, &mut opening, shape);
    opening
}

/// Short distances most: only beside the offset is a single unit more seen.
fn at_limit(rng: &mut Rng, chosen: Chosen, scale: Scale) -> Opening {
    let (window, offset) = match rng.below(4) {
        0 => {
            let window = window(rng, scale);
            (window, offset(rng, window))
        }
        1 => beside(rng, 40),
        _ => beside(rng, 1),
    };
    let mut opening = bare(rng, chosen, window, offset);
    shapes::to_edge(rng, &mut opening);
    opening
}

/// A window of up to so many ticks with its offset at one of its ends, or
/// inside.
fn beside(rng: &mut Rng, most: i64) -> (Window, i64) {
    let length = rng.between(1, most);
    let window = placed(rng, length);
    let Window { start, end } = window;
    let inside = rng.between(start, end);
    (window, rng.pick(&[start, end, inside]))
}

fn bare(rng: &mut Rng, chosen: Chosen, window: Window, offset: i64) -> Opening {
    let contact = PolyOpening {
        window,
        offset,
        coefficients: [0; COEFFICIENTS],
        delays: delays(rng, window),
    };
    Opening::of(chosen, contact)
}

fn window(rng: &mut Rng, scale: Scale) -> Window {
    let length = length(rng, scale);
    placed(rng, length)
}

/// Mostly such as cover the window: where nothing is found, nothing is booked.
fn delays(rng: &mut Rng, window: Window) -> Vec<Span> {
    match rng.below(6) {
        0 => loose_delays(rng, window),
        1 => nearly_covering(rng, window),
        _ => tiled(rng, window, MAX_DELAYS, |rng, _| delay(rng)),
    }
}

fn offset(rng: &mut Rng, window: Window) -> i64 {
    let Window { start, end } = window;
    let offset = match rng.below(14) {
        0..4 => start,
        4 => end,
        5..7 => rng.between(start, end),
        7..9 => rng.between(start - 5, end + 5),
        9 => 0,
        10 => rng.between(0, MAX_DATE),
        11 => MAX_DATE,
        12 => start - rng.any_scale(MAX_DATE),
        _ => end + rng.any_scale(MAX_DATE),
    };
    offset.clamp(0, MAX_DATE)
}
