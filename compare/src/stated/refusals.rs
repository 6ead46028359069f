//! Refusals of calls on an open record: 7, 8, 9, 12 and 13, and 1 where none is
//! open. (2 and 10 stand in `limits`, the openings' own in `openings`.)

use super::{Talk, all_over_a, contact_a, load, poly_a, queue_a, request, spans_of, two_to};
use crate::frames::{
    BUDGETS, Dates, Frame, PolyOpening, QueueOpening, RatedOpening, Request, Window, flag,
};
use crate::refusal::Refusal;

pub fn talks() -> Vec<Talk> {
    let mut talks = no_offer();
    talks.push(no_delay());
    talks.extend(not_offered());
    talks.extend(not_manual());
    talks.extend(queue_bounds());
    talks
}

/// 1, for every frame but openings, whatever it holds.
pub fn nothing_open() -> Vec<Talk> {
    let asked = [request(0, 1, 0), request(-1, 0, 255)];
    let mut talk = Talk::about("nothing open")
        .refused(Frame::List, Refusal::NothingOpen)
        .refused(Frame::Room, Refusal::NothingOpen);
    for request in asked {
        for frame in [
            Frame::DryRun(request),
            Frame::Book(request, Dates([0; 4])),
            Frame::Enqueue(request.load),
            Frame::Dequeue(request.load),
        ] {
            talk = talk.refused(frame, Refusal::NothingOpen);
        }
    }
    let refused = Frame::OpenFree(RatedOpening {
        window: Window { start: 1, end: 1 },
        ..contact_a()
    });
    vec![
        talk.refused(refused, Refusal::Window)
            .refused(Frame::List, Refusal::NothingOpen)
            .refused(Frame::Room, Refusal::NothingOpen)
            .line(b"13", b"ff"),
    ]
}

fn no_offer() -> Vec<Talk> {
    let mut talks = Vec::new();
    for (name, open) in all_over_a() {
        talks.push(
            Talk::about(format!("no offer, {name}"))
                .done(open)
                .no_offer(request(0, 101, 0))
                .no_offer(request(9, 20, 0))
                .no_offer(request(10, 10, 0))
                .no_offer(request(11, 1, 0)),
        );
    }
    talks.push(
        Talk::about("a rate of zero carries nothing")
            .done(Frame::OpenFree(RatedOpening {
                rates: spans_of([(0, 4, 0), (4, 6, 5), (6, 10, 0)]),
                ..contact_a()
            }))
            .offers(request(0, 1, 0), [0, 4, 3, 7])
            .offers(request(0, 10, 0), [0, 6, 3, 9])
            .no_offer(request(5, 6, 0))
            .no_offer(request(6, 1, 0)),
    );
    talks
}

/// 8: only the polynomial manager's delays may leave a date out.
fn no_delay() -> Talk {
    let with = |delays| Frame::OpenPoly(PolyOpening { delays, ..poly_a() });
    let refused = |talk: Talk, asked: Request| {
        talk.refused(Frame::DryRun(asked), Refusal::NoDelay)
            .refuses_booking(
                asked,
                [asked.time, asked.time + 1, 0, 0],
                Refusal::NotOffered,
            )
    };
    let talk = Talk::about("no delay segment").done(with(Vec::new()));
    let talk = refused(talk, request(0, 10, 0)).no_offer(request(0, 101, 0));
    // The start's is found, the end's is not.
    let talk = talk.done(with(spans_of([(0, 3, 7)])));
    let talk = talk.offers(request(2, 10, 0), [2, 3, 9, 10]);
    let talk = refused(talk, request(3, 10, 0));
    let talk = refused(talk, request(4, 10, 0));
    // The end's lookup goes on from the start's: an earlier one is not seen.
    let talk = talk.done(with(spans_of([(0, 9, 1), (0, 2, 2), (0, 3, 4)])));
    let talk = talk.offers(request(0, 10, 0), [0, 1, 1, 2]);
    let talk = talk.done(with(spans_of([(0, 2, 2), (0, 9, 1), (0, 4, 4)])));
    talk.offers(request(3, 10, 0), [3, 4, 4, 5])
        .refused(Frame::DryRun(request(9, 10, 0)), Refusal::NoDelay)
}

/// 9: each date off by one, another time, what was never offered, and the same
/// booking again.
fn not_offered() -> Vec<Talk> {
    all_over_a()
        .into_iter()
        .map(|(name, open)| {
            let asked = request(3, 20, 1);
            let dates = [3, 5, 6, 8];
            let refuse =
                |talk: Talk, asked, dates| talk.refuses_booking(asked, dates, Refusal::NotOffered);
            let mut talk = Talk::about(format!("not offered, {name}"))
                .done(open)
                .offers(asked, dates);
            for place in 0..4 {
                for step in [-1, 1] {
                    let mut other = dates;
                    other[place] += step;
                    talk = refuse(talk, asked, other);
                }
            }
            talk = refuse(talk, request(2, 20, 1), dates);
            talk = refuse(talk, request(3, 40, 1), dates);
            talk = refuse(talk, request(3, 101, 1), dates);
            talk = refuse(talk, asked, [0; 4]);
            talk = talk.done(Frame::Book(asked, Dates(dates)));
            match name {
                // A queue that does not update itself offers the same again.
                "queue" => talk.done(Frame::Book(asked, Dates(dates))),
                _ => refuse(talk, asked, dates),
            }
        })
        .collect()
}

fn not_manual() -> Vec<Talk> {
    let updating = ("self-updating queue", Frame::OpenQueue(queue_a(3, 3)));
    all_over_a()
        .into_iter()
        .filter(|(name, _)| *name != "queue")
        .chain([updating])
        .map(|(name, open)| {
            Talk::about(format!("no manual queueing, {name}"))
                .done(open)
                .refused(Frame::Enqueue(load(1, 0)), Refusal::NotManual)
                .refused(Frame::Dequeue(load(1, 0)), Refusal::NotManual)
        })
        .collect()
}

// ---------------------------------------------------------------------------
// 13

fn queue_bounds() -> Vec<Talk> {
    vec![to_the_top(), below_zero(), booked_to_the_top()]
}

fn to_the_top() -> Talk {
    let mut talk = Talk::about("a queue to 2^41").done(Frame::OpenQueue(queue_a(2, 0)));
    for _ in 0..two_to(41) / two_to(38) {
        talk = talk.done(Frame::Enqueue(load(two_to(38), 0)));
    }
    talk.queues(&[two_to(41), 0])
        .refused(Frame::Enqueue(load(1, 0)), Refusal::QueueBound)
        // Class 1 would fit; class 0 would not, and neither is changed.
        .refused(Frame::Enqueue(load(1, 1)), Refusal::QueueBound)
        .queues(&[two_to(41), 0])
        .done(Frame::Dequeue(load(two_to(38), 0)))
        .done(Frame::Enqueue(load(two_to(38), 127)))
        .queues(&[two_to(41), two_to(38)])
}

fn below_zero() -> Talk {
    Talk::about("a queue to zero")
        .done(Frame::OpenQueue(queue_a(3, 0)))
        .refused(Frame::Dequeue(load(1, 0)), Refusal::QueueBound)
        .done(Frame::Enqueue(load(5, 0)))
        .done(Frame::Enqueue(load(3, 1)))
        .queues(&[8, 3, 0])
        .refused(Frame::Dequeue(load(4, 1)), Refusal::QueueBound)
        .refused(Frame::Dequeue(load(1, 2)), Refusal::QueueBound)
        .queues(&[8, 3, 0])
        .done(Frame::Dequeue(load(8, 0)))
        .refused(Frame::Dequeue(load(3, 1)), Refusal::QueueBound)
        .queues(&[0, 3, 0])
}

/// Bookings alone reach 2^41 and no more: each class has one budget of at most
/// 2^38, and there are eight.
fn booked_to_the_top() -> Talk {
    let mut talk = Talk::about("bookings to 2^41").done(Frame::OpenQueue(QueueOpening {
        window: Window { start: 0, end: 1 },
        rate: two_to(38),
        budgets: [two_to(38); BUDGETS],
        ..queue_a(8, flag::SELF_UPDATE | flag::BUDGETED)
    }));
    for class in 0..BUDGETS as u8 {
        talk = talk.books(request(0, two_to(38), class), [0, 1, 3, 4]);
    }
    let queues: Vec<i64> = (1..=8).rev().map(|times| times * two_to(38)).collect();
    talk.queues(&queues).no_offer(request(0, 1, 7))
}
