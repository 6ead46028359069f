//! Which openings are refused, and with which number: 2 for a mode, a rule or a
//! flag that is none before all else, then document 01's 3, 5, 11.

use super::fraction::Fraction;
use crate::editions::reading::opening::window_in_limits;
use crate::frames::{PolyOpening, Span, Window};
use crate::limits::{MAX_CAPACITY, MAX_COEFFICIENT, MAX_DATE, MAX_DELAY, MAX_DELAYS};
use crate::modes::terms::{EXACT, Opening, is_mode};
use crate::rules::cover::delays_cover;
use crate::rules::{LATER, is_rule};
use crate::strict::flag::is_flag;

pub fn refusal(opening: &Opening) -> Option<u8> {
    let contact = &opening.contact;
    if !is_mode(opening.mode) || !is_rule(opening.rule) || !is_flag(opening.strict) {
        return Some(2);
    }
    if !window_in_limits(contact.window) {
        return Some(3);
    }
    if !delays_fit(opening) {
        return Some(5);
    }
    if !polynomial_fits(opening) {
        return Some(11);
    }
    None
}

pub fn polynomial_fits(opening: &Opening) -> bool {
    numbers_in_limits(&opening.contact) && steps_in_range(opening)
}

fn is_date(number: i64) -> bool {
    (0..=MAX_DATE).contains(&number)
}

/// Under rule 2 the list "must cover its window as the others' do, else 5".
fn delays_fit(opening: &Opening) -> bool {
    let contact = &opening.contact;
    match opening.rule == LATER {
        true => delays_cover(&contact.delays, contact.window),
        false => delays_in_limits(&contact.delays),
    }
}

/// "polynomial manager: only a count above 16 or a number outside its limits":
/// no segment at all will do, in any order, empty and backward ones too.
fn delays_in_limits(delays: &[Span]) -> bool {
    let fits = |delay: &Span| {
        is_date(delay.start) && is_date(delay.end) && (0..=MAX_DELAY).contains(&delay.value)
    };
    delays.len() <= MAX_DELAYS && delays.iter().all(fits)
}

fn numbers_in_limits(contact: &PolyOpening) -> bool {
    let coefficients = -MAX_COEFFICIENT..=MAX_COEFFICIENT;
    is_date(contact.offset)
        && contact
            .coefficients
            .iter()
            .all(|number| coefficients.contains(number))
}

/// "Range rule: with d replaced by the largest distance of a window end from the
/// offset, and quotients by their absolute values, no step passes 2^61", and
/// "11 now tests the twelvefold steps against 2^61 in this mode": the steps are
/// 01's, over exact quotients, and twelve times each is compared with 2^61. A
/// step is the value after a quotient is added, and the last product. Each is
/// tested before the next is worked out, so that all of them fit.
fn steps_in_range(opening: &Opening) -> bool {
    let distance = largest_distance(&opening.contact);
    let (fold, limit) = (fold(opening.mode), Fraction::whole(MAX_CAPACITY));
    let mut value = Fraction::ZERO;
    for power in (0..opening.contact.coefficients.len()).rev() {
        value = value * distance + quotient(opening, power).abs();
        if fold * value > limit {
            return false;
        }
    }
    fold * (value * distance) <= limit
}

fn fold(mode: u64) -> Fraction {
    Fraction::whole(if mode == EXACT { 12 } else { 1 })
}

/// c_i / (i+1): exact, or rounded towards zero where it is ported.
fn quotient(opening: &Opening, power: usize) -> Fraction {
    let coefficient = i128::from(opening.contact.coefficients[power]);
    let divisor = power as i128 + 1;
    match opening.mode == EXACT {
        true => Fraction::of(coefficient, divisor),
        false => Fraction::whole(coefficient / divisor),
    }
}

/// Above zero, as the window's ends are apart.
fn largest_distance(contact: &PolyOpening) -> Fraction {
    let from_offset = |date: i64| (i128::from(date) - i128::from(contact.offset)).abs();
    let Window { start, end } = contact.window;
    Fraction::whole(from_offset(start).max(from_offset(end)))
}
