//! The priority manager's offers and cuts.

use super::record::{Record, Send};
use crate::frames::{Request, Span};

/// "Skip segments ending at or before the asked time. A segment with value >=
/// the priority breaks a run. A run begins at the later of segment start and
/// asked time, its end found against the window's end; the offer comes at the
/// first run segment that reaches it. If no end is found, the next segment
/// begins anew."
pub fn find(record: &Record, request: Request) -> Option<Send> {
    let mut run: Option<Send> = None;
    for (place, span) in record.list.iter().enumerate() {
        if span.end <= request.time {
            continue;
        }
        if span.value >= i64::from(request.load.priority) {
            run = None;
            continue;
        }
        run = run.or_else(|| begin(record, place, request));
        if let Some(send) = run
            && send.end <= span.end
        {
            return Some(send);
        }
    }
    None
}

fn begin(record: &Record, place: usize, request: Request) -> Option<Send> {
    let start = record.list[place].start.max(request.time);
    let end = record.end(start, request.load.size, record.window.end)?;
    Some(Send { place, start, end })
}

/// "Booking sets [send start, send end) to the priority, cutting at both ends,
/// without merging; empty segments strictly inside are set too. A zero-length
/// send strictly inside a segment lists an empty segment; on a boundary it
/// changes nothing."
pub fn cut(record: &Record, send: Send, priority: u8) -> Vec<Span> {
    let mut list = cut_at(&record.list, send.start);
    match send.start == send.end {
        true => list_empty(&mut list, &record.list, send.start, priority),
        false => {
            list = cut_at(&list, send.end);
            set_inside(&mut list, send, priority);
        }
    }
    list
}

/// The segment that has the date strictly inside, in two.
fn cut_at(list: &[Span], date: i64) -> Vec<Span> {
    let mut parts = Vec::new();
    for span in list {
        if span.start < date && date < span.end {
            parts.push(Span { end: date, ..*span });
            parts.push(Span {
                start: date,
                ..*span
            });
        } else {
            parts.push(*span);
        }
    }
    parts
}

/// Between the two parts that the cut has just made, if it made them.
fn list_empty(list: &mut Vec<Span>, before: &[Span], date: i64, priority: u8) {
    let Some(place) = before
        .iter()
        .position(|span| span.start < date && date < span.end)
    else {
        return;
    };
    list.insert(
        place + 1,
        Span {
            start: date,
            end: date,
            value: priority.into(),
        },
    );
}

fn set_inside(list: &mut [Span], send: Send, priority: u8) {
    for span in list {
        let is_inside = match span.start == span.end {
            true => send.start < span.start && span.start < send.end,
            false => send.start <= span.start && span.end <= send.end,
        };
        if is_inside {
            span.value = priority.into();
        }
    }
}
