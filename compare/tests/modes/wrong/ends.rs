//! Flaws of the capacity, of the end search and of the delays.

use std::cmp::Ordering;

use oracle::frames::{Dates, Request, Span};
use oracle::modes::reading::capacity::Capacity;
use oracle::modes::reading::fraction::Fraction;
use oracle::modes::reading::record::{Record, Send};
use oracle::modes::terms::{EXACT, Opening, PORTED};
use oracle::rules::EARLIER;

use super::flaw::Flaw;

pub fn find(flaw: Flaw, record: &Record, request: Request) -> Option<Send> {
    let segments = record.list.iter().enumerate();
    let mut left = segments.filter(|(_, span)| span.end >= request.time);
    let try_one = |(place, span): (usize, &Span)| {
        let start = span.start.max(request.time);
        let end = end(flaw, record, *span, start, request.load.size)?;
        Some(Send { place, start, end })
    };
    match flaw == Flaw::NothingPassedOver {
        true => left.next().and_then(try_one),
        false => left.find_map(try_one),
    }
}

// ---------------------------------------------------------------------------
// Capacity

fn capacity(flaw: Flaw, record: &Record, from: i64, to: i64) -> Fraction {
    let opening = read(flaw, &record.opening);
    let exact = Capacity::of(&opening).between(from, to);
    let is_exact = opening.mode == EXACT;
    match flaw {
        Flaw::RoundsQuotientsDown if !is_exact => {
            let to_date = |date| rounded_down(&opening, date);
            to_date(to) - to_date(from)
        }
        Flaw::FourthByThree if is_exact => exact + Fraction::of(1, 3) * last(&opening, 3, from, to),
        Flaw::ThirdByTwo if is_exact => exact + Fraction::of(1, 2) * last(&opening, 2, from, to),
        Flaw::RoundsCapacity => Fraction::whole(exact.floor()),
        Flaw::RoundsUp => Fraction::ZERO - Fraction::whole((Fraction::ZERO - exact).floor()),
        Flaw::RoundsEachDate => {
            let offset = opening.contact.offset;
            let to_date = |date| Capacity::of(&opening).between(offset, date).floor();
            Fraction::whole(to_date(to) - to_date(from))
        }
        _ => exact,
    }
}

/// The opening as the program reads it.
fn read(flaw: Flaw, opening: &Opening) -> Opening {
    let mut read = opening.clone();
    let contact = &mut read.contact;
    match flaw {
        Flaw::PortedQuotients => read.mode = PORTED,
        Flaw::ExactFirst => {
            read.mode = EXACT;
            if oracle::modes::reading::opening::refusal(&read).is_some() {
                read.mode = opening.mode;
            }
        }
        Flaw::DistanceFromStart => contact.offset = contact.window.start,
        Flaw::NoSign if contact.window.end <= contact.offset => {
            contact.coefficients[0] *= -1;
            contact.coefficients[2] *= -1;
        }
        _ => {}
    }
    read
}

/// What this power alone carries.
fn last(opening: &Opening, power: usize, from: i64, to: i64) -> Fraction {
    let mut alone = opening.clone();
    for (place, coefficient) in alone.contact.coefficients.iter_mut().enumerate() {
        if place != power {
            *coefficient = 0;
        }
    }
    Capacity::of(&alone).between(from, to)
}

fn rounded_down(opening: &Opening, date: i64) -> Fraction {
    let distance = i128::from(date) - i128::from(opening.contact.offset);
    let mut value = 0;
    for (power, coefficient) in opening.contact.coefficients.iter().enumerate().rev() {
        value = value * distance + i128::from(*coefficient).div_euclid(power as i128 + 1);
    }
    Fraction::whole(value * distance)
}

// ---------------------------------------------------------------------------
// The end search

/// More ticks are not gone through one by one.
const FEW: i64 = 1_000;

fn end(flaw: Flaw, record: &Record, span: Span, from: i64, size: i64) -> Option<i64> {
    let is_exact = record.opening.mode == EXACT;
    let size = match flaw {
        Flaw::Elevenfold if is_exact => Fraction::of(11 * size, 12),
        Flaw::SizeOnefold if is_exact => Fraction::of(size, 12),
        _ => Fraction::whole(size),
    };
    let high = match flaw {
        Flaw::ToWindowEnd => record.window().end,
        _ => span.end,
    };
    let carried = |date| capacity(flaw, record, from, date);
    let in_all = match flaw {
        Flaw::SufficesPorted => capacity(Flaw::PortedQuotients, record, from, high),
        _ => carried(high),
    };
    if from >= span.end || !suffices(flaw, in_all, size) {
        return None;
    }
    match flaw {
        Flaw::FirstTick if high - from < FEW => (from..=high).find(|tick| carried(*tick) >= size),
        _ => Some(halved(flaw, from, high, |date| carried(date).cmp(&size))),
    }
}

fn suffices(flaw: Flaw, carried: Fraction, size: Fraction) -> bool {
    match flaw {
        Flaw::NeedsMore => carried > size,
        Flaw::NeedsNothing => true,
        _ => carried >= size,
    }
}

fn halved(flaw: Flaw, from: i64, to: i64, compared: impl Fn(i64) -> Ordering) -> i64 {
    let (mut low, mut high) = (from, to);
    while low <= high {
        let up = i64::from(flaw == Flaw::MiddleUp);
        let middle = low + (high - low + up) / 2;
        match (compared(middle), flaw) {
            (Ordering::Equal, Flaw::GoesOnAtEquality) => high = middle - 1,
            (Ordering::Equal, Flaw::EqualIsLess) => low = middle + 1,
            (Ordering::Equal, _) => return middle,
            (Ordering::Less, _) => low = middle + 1,
            (Ordering::Greater, _) => high = middle - 1,
        }
    }
    if flaw == Flaw::ReturnsHigh { high } else { low }
}

// ---------------------------------------------------------------------------
// Delays

pub fn dates(flaw: Flaw, record: &Record, send: Send) -> Result<Dates, u8> {
    let is_first = record.opening.rule == EARLIER;
    match flaw {
        Flaw::Looks(lookup) => lookup.dates(record.looked_up(), send.start, send.end),
        Flaw::LookupAfter if is_first => {
            let delays = &record.opening.contact.delays;
            let first = delays.iter().position(|delay| delay.end >= send.start);
            let mut rest = delays.iter().skip(first.ok_or(8)? + 1);
            let second = rest.find(|delay| delay.end >= send.end).ok_or(8)?;
            let Dates([start, end, from, _]) = record.dates(send)?;
            Ok(Dates([start, end, from, end + second.value]))
        }
        Flaw::StrictDelay if is_first => {
            let mut strict = record.clone();
            let delays = strict.opening.contact.delays.iter_mut();
            delays.for_each(|delay| delay.end -= 1);
            strict.dates(send)
        }
        Flaw::NoDelayIsSeven => record.dates(send).map_err(|_| 7),
        _ => record.dates(send),
    }
}

pub fn is_same(flaw: Flaw, offered: Dates, stated: Dates) -> bool {
    match flaw {
        Flaw::AnyReceiveEnd => offered.0[..3] == stated.0[..3],
        _ => offered == stated,
    }
}
