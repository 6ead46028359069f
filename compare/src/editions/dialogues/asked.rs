//! What is asked of a record: times, sizes and priorities about everything that
//! decides an answer.

use crate::editions::reading::record::Record;
use crate::editions::terms::Manager;
use crate::frames::{Load, Request, Span, Window};
use crate::generate::exhaustive;
use crate::generate::rng::Rng;
use crate::limits::{MAX_DATE, MAX_PRIORITY, MAX_SIZE};
use crate::trial::offers::boundary;

const FEW_TICKS: i64 = 5;
const LITTLE: i64 = 12;

pub fn request(rng: &mut Rng, record: &Record) -> Request {
    let time = time(rng, record);
    Request {
        time,
        load: Load {
            size: size(rng, record, time),
            priority: priority(rng),
        },
    }
}

/// Every time, size and priority that can decide, where few ticks carry little;
/// none elsewhere.
pub fn every_request(record: &Record) -> Vec<Request> {
    let Window { start, end } = record.window;
    let total = carried(record, start, end);
    if end - start > FEW_TICKS || total > LITTLE {
        return Vec::new();
    }
    let priorities: &[u8] = match record.manager {
        Manager::Free => &[0],
        Manager::Priority => &[0, 2],
    };
    exhaustive::requests(record.window, total + 2, priorities)
}

/// A request for ticks strictly inside a listed segment, for the exact capacity
/// of a few of them: each booking of one makes the list longer.
pub fn inner_request(rng: &mut Rng, record: &Record) -> Option<Request> {
    let mut inner = record.list.clone();
    inner.retain(|span| span.end - span.start > 2);
    if inner.is_empty() {
        return None;
    }
    let span = rng.pick(&inner);
    let start = rng.between(span.start + 1, span.end - 2);
    let end = (start + rng.between(1, 2)).min(span.end - 1);
    let above = span.value + rng.between(1, 2);
    Some(Request {
        time: start,
        load: Load {
            size: carried(record, start, end).clamp(1, MAX_SIZE),
            priority: above.clamp(0, MAX_PRIORITY.into()) as u8,
        },
    })
}

pub fn listed(rng: &mut Rng, record: &Record) -> Span {
    rng.pick(&record.list)
}

/// Before, in, at the end of and after the window, where a delay changes, and
/// about the list's edges.
pub fn time(rng: &mut Rng, record: &Record) -> i64 {
    let Window { start, end } = record.window;
    let time = match rng.below(20) {
        0 => rng.pick(&[0, MAX_DATE - 1, MAX_DATE]),
        1 => end + rng.between(-2, 1),
        2..5 => start + rng.between(-2, 1),
        5..8 => listed(rng, record).start + rng.between(-1, 1),
        8..10 => listed(rng, record).end + rng.between(-1, 1),
        10..14 => boundary(rng, &record.delays, record.window),
        _ => rng.between(start, end),
    };
    time.clamp(0, MAX_DATE)
}

/// From 1 to two above what there is, and about exact capacities.
fn size(rng: &mut Rng, record: &Record, time: i64) -> i64 {
    let Window { start, end } = record.window;
    let total = carried(record, start, end);
    let size = match rng.below(24) {
        0..2 => 1,
        2 => total + rng.between(-1, 2),
        3 => rng.between(1, total + 2),
        4 => rng.any_scale(total + 2),
        5..8 => to_listed_end(rng, record, time) + rng.between(-1, 2),
        8..11 => listed_capacity(rng, record) + rng.between(-1, 2),
        11 => listed(rng, record).value + rng.between(-1, 1),
        12..16 => few_ticks(rng, record, time) + rng.between(-1, 1),
        16..20 => {
            let to = boundary(rng, &record.delays, record.window);
            carried(record, time, to)
        }
        _ => {
            let from = rng.between(start, end - 1);
            few_ticks(rng, record, from) + rng.between(-1, 1)
        }
    };
    size.clamp(1, MAX_SIZE)
}

fn to_listed_end(rng: &mut Rng, record: &Record, from: i64) -> i64 {
    let end = listed(rng, record).end;
    carried(record, from, end)
}

fn listed_capacity(rng: &mut Rng, record: &Record) -> i64 {
    let Span { start, end, .. } = listed(rng, record);
    carried(record, start, end)
}

/// Mostly a handful; over a long window sometimes many.
fn few_ticks(rng: &mut Rng, record: &Record, from: i64) -> i64 {
    let length = record.window.end - record.window.start;
    let ticks = match rng.once_in(6) {
        true => rng.any_scale(length),
        false => rng.between(1, 4),
    };
    carried(record, from, from + ticks)
}

/// The exact capacity of what of [from, to) is in the window.
pub fn carried(record: &Record, from: i64, to: i64) -> i64 {
    let Window { start, end } = record.window;
    let (from, to) = (from.clamp(start, end), to.clamp(start, end));
    record.capacity.between(from, to) as i64
}

/// Few distinct ones, so that some are in each other's way.
pub fn priority(rng: &mut Rng) -> u8 {
    match rng.below(12) {
        0 => MAX_PRIORITY,
        1 => rng.below(usize::from(MAX_PRIORITY) + 1) as u8,
        _ => rng.below(4) as u8,
    }
}
