//! Document 02's R-7 read from the documents' words: by hand, against the original
//! with the flag off, and held against programs that are wrong.

mod by_hand;
mod claims;
mod itself;
mod orders;
mod original;
mod program;
mod queues;
mod refused;
mod twins;
mod wrong;

use oracle::editions::terms::{FIRST, Opening as Rated};
use oracle::frames::{Dates, Request, Span};
use oracle::modes::terms::{Opening as Poly, PORTED};
use oracle::rules::EARLIER;
use oracle::stated::{contact_a, poly_a, queue_a, request};
use oracle::strict::calls::Calls;
use oracle::strict::queues::terms::Opening as Queue;
use oracle::strict::reading::Reading;
use oracle::strict::terms::{Call, Manager, Opening};
use oracle::trial::answers::Said;
use oracle::trial::choices::Chosen;

/// A queue that updates itself and adds no delay.
const SELF_UPDATE: u8 = 2;

/// What document 01 has, with this flag.
fn plain(strict: u64) -> Chosen {
    Chosen {
        kind: FIRST,
        rule: EARLIER,
        strict,
    }
}

/// Contact A of document 01, with this flag. Its queue has three classes.
fn opening_a(manager: Manager, strict: u64) -> Opening {
    assert_eq!(FIRST, PORTED);
    match manager {
        Manager::Free | Manager::Priority => Opening::Rated(Rated::of(plain(strict), contact_a())),
        Manager::Poly => Opening::Poly(Poly::of(plain(strict), poly_a())),
        Manager::Queue => Opening::Queue(Queue {
            strict,
            contact: queue_a(3, SELF_UPDATE),
        }),
    }
}

fn opened(manager: Manager, opening: Opening) -> Reading {
    let mut reading = Reading::of(manager);
    assert_eq!(reading.ask(&Call::Open(opening)).number(), 0);
    reading
}

fn contact(manager: Manager, strict: u64) -> Reading {
    opened(manager, opening_a(manager, strict))
}

fn shown(reading: &mut Reading, asked: Request) -> Result<[i64; 4], u8> {
    match reading.ask(&Call::DryRun(asked)) {
        Said::Offer(Dates(dates)) => Ok(dates),
        said => Err(said.number()),
    }
}

/// What is shown is booked.
fn book(reading: &mut Reading, time: i64, size: i64, priority: u8) -> u8 {
    let asked = request(time, size, priority);
    let dates = shown(reading, asked).expect("an offer");
    stated(reading, asked, dates)
}

fn stated(reading: &mut Reading, asked: Request, dates: [i64; 4]) -> u8 {
    reading.ask(&Call::Book(asked, Dates(dates))).number()
}

fn list(reading: &mut Reading) -> Vec<(i64, i64, i64)> {
    match reading.ask(&Call::List) {
        Said::Listed(spans) => spans.iter().map(tuple).collect(),
        said => panic!("no list: {said}"),
    }
}

fn tuple(span: &Span) -> (i64, i64, i64) {
    (span.start, span.end, span.value)
}
