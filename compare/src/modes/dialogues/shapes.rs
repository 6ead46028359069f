//! Polynomials: constants, lines of slope 1, falling rates, hills and waves,
//! and such as come to the range rule's limit.

use crate::frames::COEFFICIENTS;
use crate::generate::rng::Rng;
use crate::limits::MAX_COEFFICIENT;
use crate::modes::reading::opening::polynomial_fits;
use crate::modes::terms::Opening;
use crate::trial::scales::Scale;

/// Coefficients over the distance from the window's start, wherever the offset
/// will be.
pub type Shape = [i128; COEFFICIENTS];

/// Longer windows get the shapes of shorter ones, which fall outside the range
/// rule less often.
const LONG: i64 = 1 << 13;

pub fn shape(rng: &mut Rng, length: i64, scale: Scale) -> Shape {
    let length = length.min(LONG);
    let shape = match rng.below(20) {
        0..2 => constant(rng),
        2..5 => rising(rng),
        // So that the list gets long.
        _ if scale == Scale::Roomy => [rng.between(1, 9), rng.between(0, 1), 0, 0],
        5..7 => falling(rng, length),
        7 => hill(rng, length),
        8..10 => return wave(rng, length),
        10..14 => dip(rng, length),
        14..16 => return touching(rng, length),
        16 => large(rng),
        _ => small(rng),
    };
    shape.map(i128::from)
}

fn constant(rng: &mut Rng) -> [i64; COEFFICIENTS] {
    match rng.below(4) {
        0 => [1, 0, 0, 0],
        1 => [rng.any_scale(1 << 40), 0, 0, 0],
        _ => [rng.between(1, 20), 0, 0, 0],
    }
}

/// The antenna people's line among them.
fn rising(rng: &mut Rng) -> [i64; COEFFICIENTS] {
    match rng.below(4) {
        0..2 => [0, 1, 0, 0],
        2 => [rng.between(-3, 3), 1, 0, 0],
        _ => [rng.between(0, 3), rng.between(0, 3), rng.between(0, 1), 0],
    }
}

/// To zero at the window's end, before it or after it.
fn falling(rng: &mut Rng, length: i64) -> [i64; COEFFICIENTS] {
    let slope = rng.between(1, 3);
    let first = match rng.below(3) {
        0 => slope * length,
        1 => rng.between(1, slope * length),
        _ => slope * length + rng.between(1, 9),
    };
    [first, -slope, 0, 0]
}

/// t (b - t): up, down and below zero.
fn hill(rng: &mut Rng, length: i64) -> [i64; COEFFICIENTS] {
    [rng.between(-2, 4), rng.between(1, length + 2), -1, 0]
}

/// A cubic with three zeros about the window, either way up; twelvefold, so that
/// the capacity is whole and meets sizes, or not.
fn wave(rng: &mut Rng, length: i64) -> Shape {
    let [one, two, three] = [(); 3].map(|()| i128::from(rng.between(-2, length + 2)));
    let factor = rng.pick(&[1, -1, 12, 12, -12, -12]);
    let shape = [
        -one * two * three,
        one * two + one * three + two * three,
        -(one + two + three),
        1,
    ];
    shape.map(|coefficient| factor * coefficient)
}

/// (t - p) (t - q): below zero only between them, so that capacity falls for a
/// while and then rises again.
fn dip(rng: &mut Rng, length: i64) -> [i64; COEFFICIENTS] {
    let factor = rng.pick(&[1, 1, 2, 6]);
    let one = rng.between(0, length);
    let two = rng.between(one, length);
    [factor * one * two, -factor * (one + two), factor, 0]
}

/// (t - p)^2 and (t - p)^3: about p a tick carries a third or a quarter. The end
/// search looks at the middle first.
fn touching(rng: &mut Rng, length: i64) -> Shape {
    let zero = match rng.once_in(2) {
        true => rng.between(0, length),
        false => length / 2 - rng.between(0, 2),
    };
    let zero = i128::from(zero);
    match rng.once_in(2) {
        true => [zero * zero, -2 * zero, 1, 0],
        false => [-zero * zero * zero, 3 * zero * zero, -3 * zero, 1],
    }
}

fn small(rng: &mut Rng) -> [i64; COEFFICIENTS] {
    [(); COEFFICIENTS].map(|()| match rng.below(5) {
        0..2 => 0,
        2 => -rng.between(1, 7),
        _ => rng.between(1, 13),
    })
}

fn large(rng: &mut Rng) -> [i64; COEFFICIENTS] {
    [(); COEFFICIENTS].map(|()| match rng.below(4) {
        0 => 0,
        1 => -rng.any_scale(MAX_COEFFICIENT),
        _ => rng.any_scale(MAX_COEFFICIENT),
    })
}

// ---------------------------------------------------------------------------
// Into the range rule

/// Gives the opening a shape, over its own offset as it is or moved there from
/// the window's start. What the range rule refuses loses its highest powers,
/// mostly.
pub fn settle(rng: &mut Rng, opening: &mut Opening, mut shape: Shape) {
    let contact = &opening.contact;
    let by = match rng.once_in(5) {
        true => 0,
        false => i128::from(contact.offset) - i128::from(contact.window.start),
    };
    let keeps_refused = rng.once_in(12);
    for power in (0..COEFFICIENTS).rev() {
        if let Some(coefficients) = moved(shape, by) {
            opening.contact.coefficients = coefficients;
            if keeps_refused || polynomial_fits(opening) {
                return;
            }
        }
        shape[power] = 0;
    }
    opening.contact.coefficients = [rng.between(1, 9), 0, 0, 0];
}

/// The same polynomial over the distance from a date that is so much later;
/// `None` where a coefficient is none of 64 bits.
fn moved(mut shape: Shape, by: i128) -> Option<[i64; COEFFICIENTS]> {
    for low in 0..COEFFICIENTS {
        for power in (low..COEFFICIENTS - 1).rev() {
            let carried = shape[power + 1].checked_mul(by)?;
            shape[power] = shape[power].checked_add(carried)?;
        }
    }
    let mut coefficients = [0; COEFFICIENTS];
    for (coefficient, number) in coefficients.iter_mut().zip(shape) {
        *coefficient = number.try_into().ok()?;
    }
    Some(coefficients)
}

/// Any coefficients, one or two of them at the largest number that the range
/// rule takes, and one a little more or less than it was.
pub fn to_edge(rng: &mut Rng, opening: &mut Opening) {
    let sparse = rng.once_in(3);
    opening.contact.coefficients = match rng.once_in(2) {
        true => small(rng),
        false => large(rng),
    };
    for power in (0..COEFFICIENTS).rev() {
        if sparse || !in_range_from(opening, power) {
            opening.contact.coefficients[power] = 0;
        }
    }
    for _ in 0..2 {
        enlarge(rng, opening);
    }
    let power = rng.below(COEFFICIENTS);
    let coefficient = &mut opening.contact.coefficients[power];
    *coefficient += coefficient.signum() * rng.pick(&[0, 0, 0, 1, 1, -1, 2]);
}

/// One coefficient as large as the others allow.
fn enlarge(rng: &mut Rng, opening: &mut Opening) {
    let power = rng.below(COEFFICIENTS);
    let number = largest(opening, power);
    opening.contact.coefficients[power] = match rng.once_in(3) {
        true => -number,
        false => number,
    };
}

/// Whether the coefficients from this power up are in range by themselves.
fn in_range_from(opening: &Opening, power: usize) -> bool {
    let mut upper = opening.clone();
    upper.contact.coefficients[..power].fill(0);
    polynomial_fits(&upper)
}

/// The largest number in range at this power, by halving; 0 where there is none.
fn largest(opening: &Opening, power: usize) -> i64 {
    let fits = |number| {
        let mut tried = opening.clone();
        tried.contact.coefficients[power] = number;
        polynomial_fits(&tried)
    };
    let (mut in_range, mut beyond) = (0, MAX_COEFFICIENT + 1);
    while beyond - in_range > 1 {
        let middle = in_range + (beyond - in_range) / 2;
        match fits(middle) {
            true => in_range = middle,
            false => beyond = middle,
        }
    }
    in_range
}
