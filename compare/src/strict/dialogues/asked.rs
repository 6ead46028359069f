//! What is asked of a record: bundles smaller than a tick carries, and all that
//! the trials of ask.

use crate::editions::dialogues::asked as rated;
use crate::editions::reading::record::Record as Rated;
use crate::frames::{Load, Request, Window};
use crate::generate::exhaustive;
use crate::generate::rng::Rng;
use crate::limits::{MAX_DATE, MAX_PRIORITY, MAX_SIZE};
use crate::modes::dialogues::asked as poly;
use crate::strict::calls::OneOf;
use crate::strict::queues::record::Record as Queue;
use crate::strict::reading::Reading;

const OPEN: &str = "opened at first";
/// Of queues of which everything is asked.
const FEW_TICKS: i64 = 4;
const LITTLE: i64 = 12;

pub fn request(rng: &mut Rng, reading: &Reading) -> Request {
    match reading {
        OneOf::Rated(it) => {
            let record = it.record.as_ref().expect(OPEN);
            match rng.once_in(3) {
                true => rated::request(rng, record),
                false => small(rng, record),
            }
        }
        OneOf::Poly(it) => poly::request(rng, it.record.as_ref().expect(OPEN)),
        OneOf::Queue(it) => queued(rng, it.record.as_ref().expect(OPEN)),
    }
}

/// For ticks strictly inside a listed segment: each booking of one makes the list
/// longer.
pub fn inner_request(rng: &mut Rng, reading: &Reading) -> Option<Request> {
    match reading {
        OneOf::Rated(it) => rated::inner_request(rng, it.record.as_ref()?),
        OneOf::Poly(it) => poly::inner_request(rng, it.record.as_ref()?),
        OneOf::Queue(_) => None,
    }
}

/// Every request that can decide, where there are few; none elsewhere.
pub fn every_request(reading: &Reading) -> Vec<Request> {
    match reading {
        OneOf::Rated(it) => rated::every_request(it.record.as_ref().expect(OPEN)),
        OneOf::Poly(it) => poly::every_request(it.record.as_ref().expect(OPEN)),
        OneOf::Queue(it) => every_queued(it.record.as_ref().expect(OPEN)),
    }
}

// ---------------------------------------------------------------------------
// Small bundles

/// Less than a tick carries, or about that: the tick of the asked time, or one at
/// which a listed segment begins.
fn small(rng: &mut Rng, record: &Rated) -> Request {
    let time = rated::time(rng, record);
    let from = match rng.once_in(3) {
        true => rated::listed(rng, record).start,
        false => time,
    };
    Request {
        time,
        load: Load {
            size: size_at(rng, record, from),
            priority: rated::priority(rng),
        },
    }
}

fn size_at(rng: &mut Rng, record: &Rated, date: i64) -> i64 {
    let Window { start, end } = record.window;
    let tick = date.clamp(start, end - 1);
    let carried = rated::carried(record, tick, tick + 1);
    let size = match rng.below(5) {
        0 => carried + rng.between(-1, 1),
        _ => rng.between(1, (carried - 1).max(1)),
    };
    size.clamp(1, MAX_SIZE)
}

/// A small bundle strictly inside a listed segment, above its value: where it is a
/// priority's, two more segments would be listed, one of them empty.
pub fn small_inside(rng: &mut Rng, reading: &Reading) -> Option<Request> {
    let OneOf::Rated(it) = reading else {
        return None;
    };
    let record = it.record.as_ref()?;
    let mut inner = record.list.clone();
    inner.retain(|span| span.end - span.start > 1);
    if inner.is_empty() {
        return None;
    }
    let span = rng.pick(&inner);
    let time = rng.between(span.start + 1, span.end - 1);
    let above = (span.value + 1).clamp(0, MAX_PRIORITY.into());
    Some(Request {
        time,
        load: Load {
            size: size_at(rng, record, time),
            priority: above as u8,
        },
    })
}

// ---------------------------------------------------------------------------
// Queues

fn queued(rng: &mut Rng, record: &Queue) -> Request {
    let Window { start, end } = record.opening.contact.window;
    let time = match rng.below(12) {
        0 => rng.pick(&[0, MAX_DATE - 1, MAX_DATE]),
        1..4 => start + rng.between(-2, 1),
        4..6 => end + rng.between(-2, 1),
        _ => rng.between(start, end),
    };
    Request {
        time: time.clamp(0, MAX_DATE),
        load: load(rng, record),
    }
}

pub fn load(rng: &mut Rng, record: &Queue) -> Load {
    let rate = record.opening.contact.rate;
    let last = record.classes() as i64 - 1;
    let priority = match rng.below(8) {
        0 => MAX_PRIORITY.into(),
        _ => rng.between(0, last + 1),
    };
    let queue = record.queues[(priority.min(last)) as usize];
    let size = match rng.below(10) {
        0..6 => rng.between(1, (rate - 1).max(1)),
        6 => rate + rng.between(-1, 1),
        7 => (rate * rng.between(1, 4)).saturating_add(rng.between(-1, 1)),
        8 => queue + rng.between(-1, 1),
        _ => rng.any_scale(MAX_SIZE),
    };
    Load {
        size: size.clamp(1, MAX_SIZE),
        priority: priority as u8,
    }
}

fn every_queued(record: &Queue) -> Vec<Request> {
    let contact = &record.opening.contact;
    let Window { start, end } = contact.window;
    let total = (end - start) * contact.rate;
    if end - start > FEW_TICKS || total > LITTLE {
        return Vec::new();
    }
    exhaustive::requests(contact.window, total + 1, &[0, 1])
}
