//! Document 01's limits, and the tests that its openings and bundles share.
//!
//! The original knows none of these: they stand around it.

use crate::frames::{Load, Request, Span, Window};
use crate::refusal::Refusal;

pub const MAX_DATE: i64 = 1 << 40;
pub const MAX_LENGTH: i64 = 1 << 24;
pub const MAX_RATE: i64 = 1 << 38;
pub const MAX_VOLUME: i64 = 1 << 38;
pub const MAX_SIZE: i64 = 1 << 38;
pub const MAX_PRIORITY: u8 = 127;
pub const MAX_DELAY: i64 = 1 << 40;
pub const MAX_RATES: usize = 16;
pub const MAX_DELAYS: usize = 16;
pub const MAX_LISTED: usize = 64;
pub const MAX_CLASSES: u8 = 8;
pub const MAX_COEFFICIENT: i64 = 1 << 61;
/// No step of the capacity passes this, in absolute value.
pub const MAX_CAPACITY: i128 = 1 << 61;
pub const MAX_QUEUE: i64 = 1 << 41;
pub const MAX_BUDGET: i64 = 1 << 38;

fn within(number: i64, low: i64, high: i64) -> bool {
    low <= number && number <= high
}

pub fn is_date(number: i64) -> bool {
    within(number, 0, MAX_DATE)
}

pub fn is_delay(number: i64) -> bool {
    within(number, 0, MAX_DELAY)
}

pub fn is_coefficient(number: i64) -> bool {
    within(number, -MAX_COEFFICIENT, MAX_COEFFICIENT)
}

pub fn is_budget(number: i64) -> bool {
    within(number, 0, MAX_BUDGET)
}

/// Refusal 3.
pub fn test_window(window: Window) -> Result<(), Refusal> {
    let fits = is_date(window.start)
        && is_date(window.end)
        && window.start < window.end
        && window.end - window.start <= MAX_LENGTH;
    fits.then_some(()).ok_or(Refusal::Window)
}

/// A list of 1 to `most` segments, none empty or backward, that covers exactly
/// the window without a gap.
fn tiles(spans: &[Span], window: Window, most: usize) -> bool {
    let mut reached = window.start;
    for span in spans {
        if span.start != reached || span.end <= span.start {
            return false;
        }
        reached = span.end;
    }
    within(spans.len() as i64, 1, most as i64) && reached == window.end
}

/// Refusal 4.
pub fn test_rate_list(rates: &[Span], window: Window) -> Result<(), Refusal> {
    tiles(rates, window, MAX_RATES)
        .then_some(())
        .ok_or(Refusal::Rates)
}

/// Refusal 5 where delays must cover the window.
pub fn test_delay_list(delays: &[Span], window: Window) -> Result<(), Refusal> {
    let fits = tiles(delays, window, MAX_DELAYS) && delays.iter().all(|span| is_delay(span.value));
    fits.then_some(()).ok_or(Refusal::Delays)
}

/// Refusal 5 where delays need not cover anything.
pub fn test_loose_delays(delays: &[Span]) -> Result<(), Refusal> {
    let fits = delays.len() <= MAX_DELAYS
        && delays
            .iter()
            .all(|span| is_date(span.start) && is_date(span.end) && is_delay(span.value));
    fits.then_some(()).ok_or(Refusal::Delays)
}

/// Refusal 6 over a list that tiles its window.
pub fn test_volumes(rates: &[Span], least_rate: i64) -> Result<(), Refusal> {
    let total: i128 = rates
        .iter()
        .map(|span| span.value as i128 * (span.end - span.start) as i128)
        .sum();
    let fits = rates
        .iter()
        .all(|span| within(span.value, least_rate, MAX_RATE))
        && total <= MAX_VOLUME as i128;
    fits.then_some(()).ok_or(Refusal::Volume)
}

/// Refusal 2 for what is to be carried.
pub fn test_load(load: Load) -> Result<(), Refusal> {
    let fits = within(load.size, 1, MAX_SIZE) && load.priority <= MAX_PRIORITY;
    fits.then_some(()).ok_or(Refusal::Bundle)
}

/// Refusal 2 for a dry run or booking.
pub fn test_request(request: Request) -> Result<(), Refusal> {
    test_load(request.load)?;
    is_date(request.time).then_some(()).ok_or(Refusal::Bundle)
}
