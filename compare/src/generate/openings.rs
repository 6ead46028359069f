//! Openings: small contacts, contacts at the limits, and wrong ones.

use super::rng::Rng;
use crate::frames::{
    BUDGETS, COEFFICIENTS, Frame, PolyOpening, QueueOpening, RatedOpening, Span, Window, flag,
};
use crate::limits::{
    MAX_BUDGET, MAX_CLASSES, MAX_COEFFICIENT, MAX_DATE, MAX_DELAY, MAX_DELAYS, MAX_LENGTH,
    MAX_QUEUE, MAX_RATE, MAX_RATES, MAX_VOLUME,
};

/// Windows of up to this length are small.
const SMALL: i64 = 40;
/// Long enough for 64 listed segments.
const ROOMY: (i64, i64) = (140, 600);

#[derive(Clone, Copy, PartialEq, Eq)]
pub enum Scale {
    Small,
    Roomy,
    Limit,
}

pub fn scale(rng: &mut Rng) -> Scale {
    match rng.below(10) {
        0..6 => Scale::Small,
        6..8 => Scale::Roomy,
        _ => Scale::Limit,
    }
}

// ---------------------------------------------------------------------------
// Windows and lists

fn window(rng: &mut Rng, scale: Scale) -> Window {
    let length = match scale {
        Scale::Small => rng.between(1, SMALL),
        Scale::Roomy => rng.between(ROOMY.0, ROOMY.1),
        Scale::Limit => match rng.below(3) {
            0 => MAX_LENGTH,
            1 => MAX_LENGTH - 1,
            _ => rng.any_scale(MAX_LENGTH),
        },
    };
    placed(rng, length)
}

/// A window of this length: at the first date, soon after it, up to the last
/// date, or anywhere.
pub fn placed(rng: &mut Rng, length: i64) -> Window {
    let latest = MAX_DATE - length;
    let start = match rng.below(8) {
        0..3 => 0,
        3..5 => rng.between(1, 30),
        5 => latest,
        6 => latest - rng.between(0, 3).min(latest),
        _ => rng.between(0, latest),
    };
    Window {
        start,
        end: start + length,
    }
}

/// Cuts a window into 1 to `most` segments and gives each a value.
pub fn tiled(
    rng: &mut Rng,
    window: Window,
    most: usize,
    mut value: impl FnMut(&mut Rng, Window) -> i64,
) -> Vec<Span> {
    let length = window.end - window.start;
    let count = match rng.below(4) {
        0 => 1,
        1 => most as i64,
        _ => rng.between(1, most as i64),
    }
    .min(length);
    let mut cuts: Vec<i64> = Vec::new();
    while (cuts.len() as i64) < count - 1 {
        let cut = rng.between(window.start + 1, window.end - 1);
        if !cuts.contains(&cut) {
            cuts.push(cut);
        }
    }
    cuts.extend([window.start, window.end]);
    cuts.sort_unstable();
    cuts.windows(2)
        .map(|pair| {
            let (start, end) = (pair[0], pair[1]);
            let value = value(rng, Window { start, end });
            Span { start, end, value }
        })
        .collect()
}

/// Rates whose total stays in its limit: `room` is what is left of it.
fn rates(rng: &mut Rng, window: Window, scale: Scale) -> Vec<Span> {
    let mut room = MAX_VOLUME;
    let mut spans = tiled(rng, window, MAX_RATES, |rng, part| {
        let length = part.end - part.start;
        let most = room / length;
        let rate = match scale {
            Scale::Limit => match rng.below(4) {
                0 => 0,
                1 => most / 16,
                2 => rng.between(0, most),
                _ => rng.any_scale(most.max(1)),
            },
            _ => match rng.below(8) {
                0..2 => 0,
                2..5 => rng.between(1, 5),
                5 => 10,
                6 => rng.between(1, 20),
                _ => rng.between(1, 1000),
            },
        }
        .min(most);
        room -= rate * length;
        rate
    });
    fill_total(rng, &mut spans, room, scale);
    spans
}

/// Sometimes the total is exactly the limit.
fn fill_total(rng: &mut Rng, spans: &mut [Span], room: i64, scale: Scale) {
    if scale != Scale::Limit || rng.once_in(2) {
        return;
    }
    let most = spans.len() - 1;
    let span = &mut spans[rng.below(most + 1)];
    span.value += room / (span.end - span.start);
}

/// The exact capacity of [start, end).
pub fn capacity(rates: &[Span], start: i64, end: i64) -> i64 {
    let of_part = |rate: &Span| rate.value * (rate.end.min(end) - rate.start.max(start)).max(0);
    rates.iter().map(of_part).sum()
}

pub fn delay(rng: &mut Rng) -> i64 {
    match rng.below(8) {
        0..2 => 0,
        2..6 => rng.between(1, 20),
        6 => MAX_DELAY,
        _ => rng.any_scale(MAX_DELAY),
    }
}

/// Delays that need not cover the window, in any order.
pub fn loose_delays(rng: &mut Rng, window: Window) -> Vec<Span> {
    if rng.once_in(3) {
        return tiled(rng, window, MAX_DELAYS, |rng, _| delay(rng));
    }
    let count = rng.between(0, MAX_DELAYS as i64);
    (0..count)
        .map(|_| {
            let date = |rng: &mut Rng| match rng.below(8) {
                0 => rng.between(0, MAX_DATE),
                1 => 0,
                2 => MAX_DATE,
                _ => rng
                    .between(window.start - 3, window.end + 3)
                    .clamp(0, MAX_DATE),
            };
            Span {
                start: date(rng),
                end: date(rng),
                value: delay(rng),
            }
        })
        .collect()
}

// ---------------------------------------------------------------------------
// Right openings

pub fn rated(rng: &mut Rng, scale: Scale) -> RatedOpening {
    let window = window(rng, scale);
    RatedOpening {
        window,
        rates: rates(rng, window, scale),
        delays: tiled(rng, window, MAX_DELAYS, |rng, _| delay(rng)),
    }
}

/// One rate over a window with room for 64 listed segments.
pub fn even_rated(rng: &mut Rng) -> RatedOpening {
    let window = window(rng, Scale::Roomy);
    RatedOpening {
        window,
        rates: vec![Span {
            start: window.start,
            end: window.end,
            value: rng.between(1, 20),
        }],
        delays: tiled(rng, window, MAX_DELAYS, |rng, _| delay(rng)),
    }
}

/// The same as a polynomial.
pub fn even_poly(rng: &mut Rng) -> PolyOpening {
    let rated = even_rated(rng);
    PolyOpening {
        window: rated.window,
        offset: rng.pick(&[0, rated.window.start, rated.window.end]),
        coefficients: [rated.rates[0].value, 0, 0, 0],
        delays: rated.delays,
    }
}

/// A polynomial that mostly obeys the range rule: a coefficient of power i is
/// kept to about 2^61 / (5 distance^(i+1)), or small.
pub fn poly(rng: &mut Rng, scale: Scale) -> PolyOpening {
    if matches!(scale, Scale::Limit) && rng.once_in(3) {
        return poly_at_limit(rng);
    }
    let window = window(rng, scale);
    let offset = match rng.below(6) {
        0 => window.start,
        1 => window.end,
        2 => rng.between(window.start, window.end),
        3 => 0,
        4 => rng.between(0, MAX_DATE),
        _ => rng
            .between(window.start - 5, window.end + 5)
            .clamp(0, MAX_DATE),
    };
    let far = window
        .start
        .abs_diff(offset)
        .max(window.end.abs_diff(offset))
        .max(1) as i128;
    let mut coefficients = [0; COEFFICIENTS];
    for (power, coefficient) in coefficients.iter_mut().enumerate() {
        let most = (MAX_COEFFICIENT as i128 / 5 / far.saturating_pow(power as u32 + 1)) as i64;
        *coefficient = this_coefficient(rng, power, most);
    }
    PolyOpening {
        window,
        offset,
        coefficients,
        delays: loose_delays(rng, window),
    }
}

/// One or two ticks beside the offset, so that a coefficient of 2^61 obeys the
/// range rule, alone or with what is left of it to another.
fn poly_at_limit(rng: &mut Rng) -> PolyOpening {
    let offset = rng.pick(&[1, 2, 1000, MAX_DATE - 1]);
    let window = match rng.below(3) {
        0 => Window {
            start: offset,
            end: offset + 1,
        },
        1 => Window {
            start: offset - 1,
            end: offset,
        },
        _ => Window {
            start: offset - 1,
            end: offset + 1,
        },
    };
    let mut coefficients = [0; COEFFICIENTS];
    let power = rng.below(COEFFICIENTS);
    coefficients[power] = MAX_COEFFICIENT - rng.between(0, 2);
    if power > 0 {
        // the quotient leaves room below
        coefficients[0] = rng.between(0, MAX_COEFFICIENT / 4);
    }
    if rng.once_in(3) {
        coefficients[power] = -coefficients[power];
    }
    PolyOpening {
        window,
        offset,
        coefficients,
        delays: loose_delays(rng, window),
    }
}

fn this_coefficient(rng: &mut Rng, power: usize, most: i64) -> i64 {
    let size = match rng.below(8) {
        0..2 => 0,
        2..5 => rng.between(0, 12).min(most.max(1)),
        5 => rng.between(0, 100).min(most),
        6 => rng.any_scale(most.max(1)),
        _ => most,
    };
    // Mostly rising, so that there is something to offer.
    match rng.once_in(if power == 0 { 6 } else { 3 }) {
        true => -size,
        false => size,
    }
}

pub fn queue(rng: &mut Rng, scale: Scale) -> QueueOpening {
    let window = window(rng, scale);
    let length = window.end - window.start;
    let most = MAX_VOLUME / length;
    let rate = match scale {
        Scale::Limit => match rng.below(3) {
            0 => most,
            1 => 1,
            _ => rng.any_scale(most),
        },
        _ => rng.between(1, 20),
    };
    let flags = rng.between(0, flag::ALL as i64) as u8;
    let classes = rng.between(1, MAX_CLASSES as i64) as u8;
    let mut budgets = [0; BUDGETS];
    if flags & flag::BUDGETED != 0 {
        for budget in &mut budgets[..classes as usize] {
            *budget = match rng.below(5) {
                0 => 0,
                1 => MAX_BUDGET,
                2 => rng.any_scale(MAX_BUDGET),
                _ => rng.between(0, (rate * length).min(MAX_BUDGET)),
            };
        }
    }
    QueueOpening {
        flags,
        classes,
        window,
        rate,
        delay: delay(rng),
        budgets,
    }
}

// ---------------------------------------------------------------------------
// Wrong openings

/// Numbers around every limit, and far outside.
pub const EDGES: [i64; 27] = [
    i64::MIN,
    i64::MIN + 1,
    -MAX_COEFFICIENT - 1,
    -MAX_COEFFICIENT,
    -MAX_DATE,
    -2,
    -1,
    0,
    1,
    2,
    MAX_LENGTH - 1,
    MAX_LENGTH,
    MAX_LENGTH + 1,
    MAX_RATE - 1,
    MAX_RATE,
    MAX_RATE + 1,
    MAX_DATE - 1,
    MAX_DATE,
    MAX_DATE + 1,
    MAX_QUEUE - 1,
    MAX_QUEUE,
    MAX_QUEUE + 1,
    MAX_COEFFICIENT - 1,
    MAX_COEFFICIENT,
    MAX_COEFFICIENT + 1,
    i64::MAX - 1,
    i64::MAX,
];

/// A number beside the old one, at an edge, or any.
pub fn other_number(rng: &mut Rng, old: i64) -> i64 {
    match rng.below(5) {
        0 => old.wrapping_add(1),
        1 => old.wrapping_sub(1),
        2 => rng.word() as i64,
        _ => rng.pick(&EDGES),
    }
}

/// An opening with one to four faults, some of which may cancel.
pub fn wrong(rng: &mut Rng) -> Frame {
    let scale = scale(rng);
    let mut frame = match rng.below(4) {
        0 => Frame::OpenFree(rated(rng, scale)),
        1 => Frame::OpenPriority(rated(rng, scale)),
        2 => Frame::OpenPoly(poly(rng, scale)),
        _ => Frame::OpenQueue(queue(rng, scale)),
    };
    for _ in 0..rng.between(1, 4) {
        match &mut frame {
            Frame::OpenFree(opening) | Frame::OpenPriority(opening) => spoil_rated(rng, opening),
            Frame::OpenPoly(opening) => spoil_poly(rng, opening),
            Frame::OpenQueue(opening) => spoil_queue(rng, opening),
            _ => unreachable!("only openings are made here"),
        }
    }
    frame
}

fn spoil_number(rng: &mut Rng, number: &mut i64) {
    *number = other_number(rng, *number);
}

fn spoil_window(rng: &mut Rng, window: &mut Window) {
    match rng.below(4) {
        0 => spoil_number(rng, &mut window.start),
        1 => spoil_number(rng, &mut window.end),
        2 => (window.start, window.end) = (window.end, window.start),
        _ => window.end = window.start,
    }
}

/// The most segments that a list gets here: with two such lists the line stays
/// a frame.
const MOST_SPANS: usize = 20;

fn spoil_list(rng: &mut Rng, spans: &mut Vec<Span>) {
    if spans.is_empty() {
        return;
    }
    let place = rng.below(spans.len());
    let span = spans[place];
    match rng.below(12) {
        0 => spans.clear(),
        1 => drop(spans.remove(place)),
        2 => lengthen(spans, place, MOST_SPANS),
        3 => lengthen(spans, place, MAX_RATES + 1),
        4 => spans[place].end = span.start,
        5 => (spans[place].start, spans[place].end) = (span.end, span.start),
        6 => spans.insert(
            place,
            Span {
                end: span.start,
                ..span
            },
        ),
        7 => spans.reverse(),
        8 => spoil_number(rng, &mut spans[place].start),
        9 => spoil_number(rng, &mut spans[place].end),
        _ => spoil_number(rng, &mut spans[place].value),
    }
}

/// Cuts single ticks off a segment, or repeats it where it is too short.
fn lengthen(spans: &mut Vec<Span>, place: usize, count: usize) {
    while spans.len() < count {
        let span = spans[place];
        spans.insert(place, span);
        if span.end.saturating_sub(span.start) > 1 {
            spans[place].end = span.start + 1;
            spans[place + 1].start = span.start + 1;
        }
    }
}

fn spoil_rated(rng: &mut Rng, opening: &mut RatedOpening) {
    match rng.below(5) {
        0 => spoil_window(rng, &mut opening.window),
        1..3 => spoil_list(rng, &mut opening.rates),
        _ => spoil_list(rng, &mut opening.delays),
    }
}

pub fn spoil_poly(rng: &mut Rng, opening: &mut PolyOpening) {
    let power = rng.below(COEFFICIENTS);
    match rng.below(6) {
        0 => spoil_window(rng, &mut opening.window),
        1 => spoil_number(rng, &mut opening.offset),
        2 => opening.coefficients[power] = opening.coefficients[power].wrapping_mul(7),
        3 => spoil_number(rng, &mut opening.coefficients[power]),
        _ => spoil_list(rng, &mut opening.delays),
    }
}

pub fn spoil_queue(rng: &mut Rng, opening: &mut QueueOpening) {
    let class = rng.below(BUDGETS);
    match rng.below(7) {
        0 => spoil_window(rng, &mut opening.window),
        1 => spoil_number(rng, &mut opening.rate),
        2 => spoil_number(rng, &mut opening.delay),
        3 => opening.classes = rng.pick(&[0, 1, 7, 8, 9, 10, 127, 128, 255]),
        4 => opening.flags ^= 1 << rng.below(4),
        _ => spoil_number(rng, &mut opening.budgets[class]),
    }
}
