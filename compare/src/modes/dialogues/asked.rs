//! What is asked of a record: times and sizes about everything that decides an
//! answer. The record keeps its rules.

use crate::frames::{Load, Request, Span, Window};
use crate::generate::exhaustive;
use crate::generate::rng::Rng;
use crate::limits::{MAX_DATE, MAX_PRIORITY, MAX_SIZE};
use crate::modes::reading::record::Record;
use crate::trial::offers::boundary;

const FEW_TICKS: i64 = 5;
const LITTLE: i64 = 12;

pub fn request(rng: &mut Rng, record: &Record) -> Request {
    let time = time(rng, record);
    Request {
        time,
        load: Load {
            size: size(rng, record, time),
            priority: priority(rng),
        },
    }
}

/// Every time and size that can decide, where few ticks carry little; none
/// elsewhere.
pub fn every_request(record: &Record) -> Vec<Request> {
    let window = record.window();
    let total = carried(record, window.start, window.end);
    if window.end - window.start > FEW_TICKS || total > LITTLE {
        return Vec::new();
    }
    exhaustive::requests(window, total.max(0) + 2, &[0])
}

/// A request for ticks strictly inside a listed segment, for about the capacity
/// of a few of them: each booking of one makes the list longer.
pub fn inner_request(rng: &mut Rng, record: &Record) -> Option<Request> {
    let mut inner = record.list.clone();
    inner.retain(|span| span.end - span.start > 2);
    if inner.is_empty() {
        return None;
    }
    let span = rng.pick(&inner);
    let start = rng.between(span.start + 1, span.end - 2);
    let end = (start + rng.between(1, 2)).min(span.end - 1);
    Some(Request {
        time: start,
        load: Load {
            size: carried(record, start, end).clamp(1, MAX_SIZE),
            priority: 0,
        },
    })
}

fn listed(rng: &mut Rng, record: &Record) -> Span {
    rng.pick(&record.list)
}

/// Before, in, at the end of and after the window, where a delay changes, and
/// about the list's edges.
fn time(rng: &mut Rng, record: &Record) -> i64 {
    let Window { start, end } = record.window();
    let time = match rng.below(20) {
        0 => rng.pick(&[0, MAX_DATE - 1, MAX_DATE]),
        1 => end + rng.between(-2, 1),
        2..6 => start + rng.between(-2, 1),
        6..8 => listed(rng, record).start + rng.between(-1, 1),
        8..10 => listed(rng, record).end + rng.between(-1, 1),
        10..14 => delay_boundary(rng, record),
        _ => rng.between(start, end),
    };
    time.clamp(0, MAX_DATE)
}

/// About exact capacities, from 1 to the largest there is.
fn size(rng: &mut Rng, record: &Record, time: i64) -> i64 {
    let Window { start, end } = record.window();
    let total = carried(record, start, end);
    let size = match rng.below(28) {
        0..2 => 1,
        2 => total + rng.between(-1, 2),
        3 => rng.any_scale(MAX_SIZE),
        4 => rng.between(1, total.clamp(1, MAX_SIZE)),
        5..8 => to_listed_end(record, time) + rng.between(-1, 1),
        8..16 => to_middle(rng, record, time) + rng.pick(&[0, 0, 0, -1, 1]),
        16..20 => few_ticks(rng, record, time) + rng.between(-1, 1),
        20..24 => {
            let to = delay_boundary(rng, record);
            carried(record, time, to)
        }
        _ => {
            let from = listed(rng, record).start;
            few_ticks(rng, record, from) + rng.between(-1, 1)
        }
    };
    match rng.once_in(200) {
        true => MAX_SIZE - rng.between(0, 1),
        false => size.clamp(1, MAX_SIZE),
    }
}

fn delay_boundary(rng: &mut Rng, record: &Record) -> i64 {
    boundary(rng, &record.opening.contact.delays, record.window())
}

/// The first segment that is not over by the asked time, from then on.
fn left(record: &Record, time: i64) -> Option<Window> {
    let span = record.list.iter().find(|span| span.end > time)?;
    Some(Window {
        start: span.start.max(time),
        end: span.end,
    })
}

fn to_listed_end(record: &Record, time: i64) -> i64 {
    left(record, time).map_or(1, |left| carried(record, left.start, left.end))
}

/// To one of the dates at which the end search looks first, so that it stops
/// there on equality, or near it.
fn to_middle(rng: &mut Rng, record: &Record, time: i64) -> i64 {
    let Some(Window { start, end }) = left(record, time) else {
        return 1;
    };
    let (mut low, mut high) = (start, end);
    let mut middle = low + (high - low) / 2;
    for _ in 0..rng.below(4) {
        match rng.once_in(2) {
            true => low = middle + 1,
            false => high = middle - 1,
        }
        if low > high {
            break;
        }
        middle = low + (high - low) / 2;
    }
    carried(record, start, middle)
}

/// Mostly a handful; over a long window sometimes many.
fn few_ticks(rng: &mut Rng, record: &Record, from: i64) -> i64 {
    let Window { start, end } = record.window();
    let from = from.max(start);
    let ticks = match rng.below(6) {
        0 => rng.any_scale(end - start),
        1 => rng.between(1, end - start),
        _ => rng.between(1, 4),
    };
    carried(record, from, from + ticks)
}

/// The capacity of what of [from, to) is in the window, rounded down.
fn carried(record: &Record, from: i64, to: i64) -> i64 {
    let Window { start, end } = record.window();
    let (from, to) = (from.clamp(start, end), to.clamp(start, end));
    let floor = record.capacity().between(from, to).floor();
    floor.try_into().expect("at most twice 2^61")
}

/// It decides nothing inside its limits.
fn priority(rng: &mut Rng) -> u8 {
    match rng.below(8) {
        0 => MAX_PRIORITY,
        _ => rng.below(3) as u8,
    }
}
