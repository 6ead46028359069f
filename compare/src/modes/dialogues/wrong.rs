//! Openings that are refused, and numbers that damage a record.

use crate::frames::{PolyOpening, Span, Window};
use crate::generate::openings::{other_number, spoil_poly};
use crate::generate::rng::Rng;
use crate::limits::{MAX_DATE, MAX_DELAY, MAX_DELAYS, MAX_LENGTH};
use crate::modes::terms::{Field, Opening};

/// One to three faults, some of which cancel; or nothing but chance.
pub fn spoil(rng: &mut Rng, contact: &mut PolyOpening) {
    if rng.once_in(12) {
        return *contact = any(rng);
    }
    for _ in 0..rng.between(1, 3) {
        match rng.below(4) {
            0 => contact.window = beside_limits(rng, contact.window),
            1 => spoil_delays(rng, contact),
            _ => spoil_poly(rng, contact),
        }
    }
}

/// Any 64 bits everywhere.
fn any(rng: &mut Rng) -> PolyOpening {
    let mut number = || rng.word() as i64;
    let window = Window {
        start: number(),
        end: number(),
    };
    let offset = number();
    let coefficients = [(); 4].map(|()| number());
    let count = number() as usize % (MAX_DELAYS + 4);
    let delays = (0..count).map(|_| Span {
        start: number(),
        end: number(),
        value: number(),
    });
    PolyOpening {
        window,
        offset,
        coefficients,
        delays: delays.collect(),
    }
}

fn beside_limits(rng: &mut Rng, window: Window) -> Window {
    let Window { start, end } = window;
    let (start, end) = match rng.below(6) {
        0 => (start, start),
        1 => (start, start.saturating_add(MAX_LENGTH + 1)),
        2 => (MAX_DATE, MAX_DATE + 1),
        3 => (-1, end),
        4 => (MAX_DATE - MAX_LENGTH, MAX_DATE),
        _ => (start, start.saturating_add(MAX_LENGTH)),
    };
    Window { start, end }
}

/// A segment too many, or a number outside its limits.
fn spoil_delays(rng: &mut Rng, contact: &mut PolyOpening) {
    let count = MAX_DELAYS + rng.below(3);
    let delays = &mut contact.delays;
    match rng.below(3) {
        0 => delays.resize(
            count,
            Span {
                start: 0,
                end: 9,
                value: 1,
            },
        ),
        1 => delays.push(Span {
            start: 0,
            end: MAX_DATE + 1,
            value: 1,
        }),
        _ => delays.push(Span {
            start: 0,
            end: 9,
            value: MAX_DELAY + 1,
        }),
    }
}

/// What to write over a record's offset or coefficients: about the old number,
/// about a limit, or any.
pub fn number(rng: &mut Rng, opening: &Opening) -> Field {
    let PolyOpening {
        offset,
        coefficients,
        ..
    } = opening.contact;
    if rng.once_in(4) {
        return Field::Offset(other_number(rng, offset));
    }
    let power = rng.below(coefficients.len());
    let old = coefficients[power];
    let number = match rng.once_in(2) {
        true => old.wrapping_mul(rng.between(2, 24)),
        false => other_number(rng, old),
    };
    Field::Coefficient(power, number)
}

/// What puts the record's own number back.
pub fn old(field: Field, opening: &Opening) -> Field {
    let contact = &opening.contact;
    match field {
        Field::Mode(_) => Field::Mode(opening.mode),
        Field::Rule(_) => Field::Rule(opening.rule),
        Field::Strict(_) => Field::Strict(opening.strict),
        Field::Offset(_) => Field::Offset(contact.offset),
        Field::Coefficient(power, _) => Field::Coefficient(power, contact.coefficients[power]),
    }
}
