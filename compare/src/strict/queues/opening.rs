//! Which openings are refused, and with which number: 2 for a flag that is none
//! before all else, then document 01's 3, 6, 5, 14.

use super::terms::Opening;
use crate::editions::reading::opening::window_in_limits;
use crate::frames::{QueueOpening, flag as flags};
use crate::limits::{MAX_BUDGET, MAX_CLASSES, MAX_DELAY, MAX_RATE, MAX_VOLUME};
use crate::strict::flag::is_flag;

pub fn refusal(opening: &Opening) -> Option<u8> {
    let contact = &opening.contact;
    if !is_flag(opening.strict) {
        return Some(2);
    }
    if !window_in_limits(contact.window) {
        return Some(3);
    }
    if !rate_in_limits(contact) {
        return Some(6);
    }
    if !(0..=MAX_DELAY).contains(&contact.delay) {
        return Some(5);
    }
    if !classes_in_limits(contact) {
        return Some(14);
    }
    None
}

/// "Rate 0 to 2^38 (queue manager: 1 to 2^38). Total volume of a contact (queue
/// manager: length x rate) at most 2^38." The window is in its limits, so that the
/// product fits.
fn rate_in_limits(contact: &QueueOpening) -> bool {
    let length = contact.window.end - contact.window.start;
    (1..=MAX_RATE).contains(&contact.rate) && length * contact.rate <= MAX_VOLUME
}

/// "class count not 1 to 8, a budget outside its limits, or one not zero past the
/// class count or when unbudgeted".
fn classes_in_limits(contact: &QueueOpening) -> bool {
    let budgeted = match contact.flags & flags::BUDGETED {
        0 => 0,
        _ => usize::from(contact.classes),
    };
    let fits = |(class, budget): (usize, &i64)| match class < budgeted {
        true => (0..=MAX_BUDGET).contains(budget),
        false => *budget == 0,
    };
    (1..=MAX_CLASSES).contains(&contact.classes) && contact.budgets.iter().enumerate().all(fits)
}
