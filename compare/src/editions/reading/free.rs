//! The free-volume manager's offers and cuts.

use super::record::{Record, Send};
use crate::editions::terms::FIRST;
use crate::frames::{Request, Span};

/// "Skip free segments ending before the asked time. The first remaining starts
/// at the later of its start and the asked time, each further one at its own
/// start. Offer the first whose listed volume is at least the size and which has
/// an end by its own end."
pub fn find(record: &Record, request: Request) -> Option<Send> {
    let Request { time, load } = request;
    let first = record.list.iter().position(|span| span.end >= time)?;
    for place in first..record.list.len() {
        let span = record.list[place];
        let start = match place == first {
            true => span.start.max(time),
            false => span.start,
        };
        if span.value < load.size {
            continue;
        }
        if let Some(end) = record.end(start, load.size, span.end) {
            return Some(Send { place, start, end });
        }
    }
    None
}

/// The list after a booking.
pub fn cut(record: &Record, send: Send, size: i64) -> Vec<Span> {
    let old = record.list[send.place];
    let parts = match send.start == old.start {
        true => vec![rest(record, old, send.end, size)],
        false => split(record, old, send),
    };
    let mut list = record.list.clone();
    list.splice(send.place..=send.place, parts);
    list
}

/// "Booking at a segment's start: start becomes the end sent, volume falls by
/// the size"; under edition 2 it "lists the exact capacity of what remains".
fn rest(record: &Record, old: Span, sent: i64, size: i64) -> Span {
    match record.edition == FIRST {
        true => Span {
            start: sent,
            end: old.end,
            value: old.value - size,
        },
        false => exact(record, sent, old.end),
    }
}

/// "Otherwise the segment is cut at the send start and its volume worked out
/// anew; a right part follows only if send start and end differ".
fn split(record: &Record, old: Span, send: Send) -> Vec<Span> {
    let mut parts = vec![exact(record, old.start, send.start)];
    if send.start != send.end {
        parts.push(exact(record, send.end, old.end));
    }
    parts
}

fn exact(record: &Record, start: i64, end: i64) -> Span {
    let value = record.capacity.between(start, end) as i64;
    Span { start, end, value }
}
