//! Flaws of the offers.

use oracle::editions::reading::record::{Record, Send};
use oracle::editions::terms::{FIRST, Manager, SECOND};
use oracle::frames::{Dates, Request, Span};

use super::flaw::Flaw;

/// The record as if it were of another edition.
fn named(record: &Record, edition: u64) -> Record {
    Record {
        edition,
        ..record.clone()
    }
}

pub fn find(flaw: Flaw, record: &Record, request: Request) -> Option<Send> {
    let is_second = record.edition == SECOND;
    let is_free = record.manager == Manager::Free;
    match flaw {
        Flaw::OffersRoundDown if is_second => named(record, FIRST).find(request),
        Flaw::PriorityRoundsDown if is_second && !is_free => named(record, FIRST).find(request),
        Flaw::RoundedDeadline if is_second => rounded_deadline(record, request),
        Flaw::NoDeadline | Flaw::StrictDeadline | Flaw::NoVolume if is_free => {
            find_free(flaw, record, request)
        }
        Flaw::OneLate if is_second => later(record.find(request)?, true),
        Flaw::ExactOneLate if is_second => {
            let send = record.find(request)?;
            let carried = record.capacity.between(send.start, send.end);
            later(send, carried == request.load.size as u128)
        }
        Flaw::RunOfOne if !is_free => {
            let send = record.find(request)?;
            (send.end <= record.list[send.place].end).then_some(send)
        }
        _ => record.find(request),
    }
}

fn later(send: Send, is_late: bool) -> Option<Send> {
    let end = send.end + i64::from(is_late);
    Some(Send { end, ..send })
}

fn rounded_deadline(record: &Record, request: Request) -> Option<Send> {
    let send = named(record, FIRST).find(request)?;
    let end = record.capacity.reaches(send.start, request.load.size)?;
    Some(Send { end, ..send })
}

fn find_free(flaw: Flaw, record: &Record, request: Request) -> Option<Send> {
    let Request { time, load } = request;
    let first = record.list.iter().position(|span| span.end >= time)?;
    let places = first..record.list.len();
    places.into_iter().find_map(|place| {
        let span = record.list[place];
        let start = match place == first {
            true => span.start.max(time),
            false => span.start,
        };
        let end = free_end(flaw, record, span, start, load.size)?;
        Some(Send { place, start, end })
    })
}

fn free_end(flaw: Flaw, record: &Record, span: Span, start: i64, size: i64) -> Option<i64> {
    if flaw != Flaw::NoVolume && span.value < size {
        return None;
    }
    match flaw {
        Flaw::NoDeadline => record.end(start, size, record.window.end),
        Flaw::StrictDeadline => record.end(start, size, span.end - 1),
        _ => record.end(start, size, span.end),
    }
}

pub fn dates(flaw: Flaw, record: &Record, send: Send) -> Result<Dates, u8> {
    if let Flaw::Looks(lookup) = flaw {
        return lookup.dates(record.looked_up(), send.start, send.end);
    }
    let Dates(mut dates) = record.dates(send)?;
    if flaw == Flaw::EarlierDelay && send.end > send.start {
        let end = send.end - 1;
        let Dates(earlier) = record.dates(Send { end, ..send })?;
        dates[3] = earlier[3] + 1;
    }
    Ok(Dates(dates))
}

pub fn is_same(flaw: Flaw, offered: Dates, stated: Dates) -> bool {
    match flaw {
        Flaw::AnyReceiveEnd => offered.0[..3] == stated.0[..3],
        _ => offered == stated,
    }
}
