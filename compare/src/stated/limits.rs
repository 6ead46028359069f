//! Document 01's list "Run as tests" for each manager, and the other limits
//! from both sides.

use super::{Talk, all_over_a, contact_a, plain, poly_a, queue_a, request, spans_of, two_to};
use crate::frames::{Frame, PolyOpening, QueueOpening, RatedOpening, Request, Window};
use crate::refusal::Refusal;

pub fn talks() -> Vec<Talk> {
    let mut talks = lengths();
    talks.extend(totals());
    talks.extend(sizes());
    talks.extend(segment_64());
    talks.extend(dates());
    talks.extend(delays());
    talks
}

/// Every manager over one window, with a rate that any length allows.
fn all_over(window: Window) -> [Frame; 4] {
    let rated = plain(window, 1, 0);
    let poly = PolyOpening {
        window,
        offset: window.start,
        coefficients: [1, 0, 0, 0],
        delays: Vec::new(),
    };
    let queue = QueueOpening {
        window,
        rate: 1,
        ..queue_a(1, 0)
    };
    [
        Frame::OpenFree(rated.clone()),
        Frame::OpenPriority(rated),
        Frame::OpenPoly(poly),
        Frame::OpenQueue(queue),
    ]
}

fn lengths() -> Vec<Talk> {
    let window = |length| Window {
        start: 0,
        end: length,
    };
    let longest = all_over(window(two_to(24)));
    let longer = all_over(window(two_to(24) + 1));
    let pairs = longest.into_iter().zip(longer);
    pairs
        .map(|(opens, refused)| {
            Talk::about(format!("length, kind {:02x}", opens.kind()))
                .done(opens)
                .refused(refused, Refusal::Window)
        })
        .collect()
}

/// The total volume, of one segment and of two.
fn totals() -> Vec<Talk> {
    let one = |rate| {
        plain(
            Window {
                start: 5,
                end: 5 + two_to(24),
            },
            rate,
            0,
        )
    };
    let two = |second| RatedOpening {
        window: Window { start: 0, end: 2 },
        rates: spans_of([(0, 1, two_to(38)), (1, 2, second)]),
        delays: spans_of([(0, 2, 0)]),
    };
    let queue = |length, rate| {
        Frame::OpenQueue(QueueOpening {
            window: Window {
                start: 0,
                end: length,
            },
            rate,
            ..queue_a(1, 0)
        })
    };
    let full = two_to(38) / two_to(24);
    let mut talks = Vec::new();
    for open in [Frame::OpenFree, Frame::OpenPriority] {
        talks.push(
            Talk::about("total volume")
                .done(open(one(full)))
                .refused(open(one(full + 1)), Refusal::Volume)
                .done(open(two(0)))
                .refused(open(two(1)), Refusal::Volume),
        );
    }
    // 2^38 + 1 is a multiple of 5.
    talks.push(
        Talk::about("total volume, queue")
            .done(queue(two_to(24), full))
            .done(queue(1, two_to(38)))
            .refused(queue(5, (two_to(38) + 1) / 5), Refusal::Volume)
            .refused(queue(2, two_to(38)), Refusal::Volume),
    );
    talks
}

fn sizes() -> Vec<Talk> {
    let refuse = |talk: Talk, size, priority, time| {
        talk.refused(
            Frame::DryRun(request(time, size, priority)),
            Refusal::Bundle,
        )
    };
    all_over_a()
        .into_iter()
        .map(|(name, open)| {
            let talk = Talk::about(format!("size, time and priority, {name}")).done(open);
            let talk = refuse(talk, 0, 0, 0);
            let talk = refuse(talk, two_to(38) + 1, 0, 0);
            let talk = refuse(talk, -1, 0, 0);
            let talk = refuse(talk, 1, 128, 0);
            let talk = refuse(talk, 1, 255, 0);
            let talk = refuse(talk, 1, 0, -1);
            let talk = refuse(talk, 1, 0, two_to(40) + 1);
            talk.no_offer(request(0, two_to(38), 127))
                .no_offer(request(two_to(40), 1, 0))
        })
        .collect()
}

// ---------------------------------------------------------------------------
// The 64th and the 65th listed segment

/// Rate 10, delay 3: room for a booking of one tick at every second tick.
const LONG: Window = Window { start: 0, end: 200 };

fn at_tick(time: i64, priority: u8) -> (Request, [i64; 4]) {
    (
        request(time, 10, priority),
        [time, time + 1, time + 3, time + 4],
    )
}

fn segment_64() -> Vec<Talk> {
    let poly = PolyOpening {
        window: LONG,
        delays: spans_of([(0, 200, 3)]),
        ..poly_a()
    };
    vec![
        free_to_65("64 segments, free", Frame::OpenFree(plain(LONG, 10, 3))),
        free_to_65("64 segments, polynomial", Frame::OpenPoly(poly)),
        priority_to_65(),
    ]
}

/// Each booking inside a free segment lists one more. At 64 one more is
/// refused, and what lists no more is still booked.
fn free_to_65(about: &str, open: Frame) -> Talk {
    let is_free = matches!(open, Frame::OpenFree(_));
    let mut talk = Talk::about(about).done(open);
    let mut spans = vec![(0, 200)];
    for count in 1..64 {
        let time = 2 * count;
        let (asked, dates) = at_tick(time, 0);
        talk = talk.books(asked, dates);
        let last = spans.pop().expect("never empty");
        spans.extend([(last.0, time), (time + 1, last.1)]);
    }
    let list = |spans: &[(i64, i64)]| -> Vec<(i64, i64, i64)> {
        let value = |start, end| if is_free { 10 * (end - start) } else { 0 };
        spans
            .iter()
            .map(|(start, end)| (*start, *end, value(start, end)))
            .collect()
    };
    let (asked, dates) = at_tick(150, 0);
    talk = talk
        .lists(&list(&spans))
        .offers(asked, dates)
        .refuses_booking(asked, dates, Refusal::ListFull)
        .lists(&list(&spans));
    let (asked, dates) = at_tick(0, 0);
    spans[0].0 = 1;
    talk.books(asked, dates).lists(&list(&spans))
}

/// A booking inside a segment lists two more, one at a segment's start one.
fn priority_to_65() -> Talk {
    let (asked, dates) = at_tick(0, 0);
    let mut talk = Talk::about("64 segments, priority")
        .done(Frame::OpenPriority(plain(LONG, 10, 3)))
        .books(asked, dates);
    let mut spans = vec![(0, 1, 0), (1, 200, -1)];
    for count in 1..32 {
        let time = 2 * count;
        let (asked, dates) = at_tick(time, 1);
        talk = talk.books(asked, dates);
        let last = spans.pop().expect("never empty");
        spans.extend([
            (last.0, time, -1),
            (time, time + 1, 1),
            (time + 1, last.1, -1),
        ]);
    }
    let (inside, inside_dates) = at_tick(150, 0);
    let (at_start, at_start_dates) = at_tick(63, 0);
    let (over, over_dates) = at_tick(62, 2);
    let refuse = |talk: Talk, asked, dates| {
        talk.offers(asked, dates)
            .refuses_booking(asked, dates, Refusal::ListFull)
    };
    talk = talk.lists(&spans);
    talk = refuse(talk, inside, inside_dates);
    talk = refuse(talk, at_start, at_start_dates);
    talk = talk.lists(&spans).books(over, over_dates);
    spans[62].2 = 2;
    talk.lists(&spans)
}

// ---------------------------------------------------------------------------
// Dates and delays

fn dates() -> Vec<Talk> {
    let last = Window {
        start: two_to(40) - 1,
        end: two_to(40),
    };
    let wrong = [
        (-1, 1),
        (two_to(40), two_to(40) + 1),
        (3, 3),
        (4, 3),
        (i64::MIN, i64::MAX),
    ]
    .map(|(start, end)| Window { start, end });
    let kinds = all_over(last).into_iter().enumerate();
    kinds
        .map(|(place, open)| {
            let mut talk = Talk::about(format!("dates, kind {:02x}", open.kind())).done(open);
            for window in wrong {
                talk = talk.refused(all_over(window)[place].clone(), Refusal::Window);
            }
            talk
        })
        .collect()
}

fn delays() -> Vec<Talk> {
    let rated = |delay| RatedOpening {
        delays: spans_of([(0, 10, delay)]),
        ..contact_a()
    };
    let poly = |delay| {
        Frame::OpenPoly(PolyOpening {
            delays: spans_of([(0, 10, delay)]),
            ..poly_a()
        })
    };
    let queue = |delay| {
        Frame::OpenQueue(QueueOpening {
            delay,
            ..queue_a(1, 0)
        })
    };
    let of_kind: [&dyn Fn(i64) -> Frame; 4] = [
        &|delay| Frame::OpenFree(rated(delay)),
        &|delay| Frame::OpenPriority(rated(delay)),
        &poly,
        &queue,
    ];
    of_kind
        .into_iter()
        .map(|open| {
            Talk::about("delays")
                .done(open(0))
                .done(open(two_to(40)))
                .refused(open(two_to(40) + 1), Refusal::Delays)
                .refused(open(-1), Refusal::Delays)
                .offers(request(0, 10, 0), [0, 1, two_to(40), two_to(40) + 1])
        })
        .collect()
}
