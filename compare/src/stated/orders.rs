//! Several faults at once: the number that comes first in document 01's orders.

use super::{Talk, contact_a, load, poly_a, queue_a, request, spans_of, two_to};
use crate::frames::{BUDGETS, Frame, PolyOpening, QueueOpening, RatedOpening, Window, flag};
use crate::refusal::Refusal;

pub fn talks() -> Vec<Talk> {
    vec![
        rated(Frame::OpenFree),
        rated(Frame::OpenPriority),
        poly(),
        queue(),
        booking(),
        manual(),
    ]
}

const WRONG_WINDOW: Window = Window { start: 10, end: 10 };

/// 3, 4, 6, 5: each time the first fault is mended.
fn rated(open: fn(RatedOpening) -> Frame) -> Talk {
    let with = |window, rates, delays| {
        open(RatedOpening {
            window,
            rates,
            delays,
        })
    };
    let good = contact_a();
    let untiled = || spans_of([(0, 9, -1)]);
    let too_much = || spans_of([(0, 10, two_to(38))]);
    let negative = || spans_of([(0, 10, -1)]);
    Talk::about("order of a rated opening")
        .refused(with(WRONG_WINDOW, untiled(), untiled()), Refusal::Window)
        .refused(with(good.window, untiled(), untiled()), Refusal::Rates)
        .refused(with(good.window, too_much(), untiled()), Refusal::Volume)
        .refused(with(good.window, negative(), negative()), Refusal::Volume)
        .refused(
            with(good.window, good.rates.clone(), negative()),
            Refusal::Delays,
        )
        .done(with(good.window, good.rates, good.delays))
}

/// 3, 5, 11.
fn poly() -> Talk {
    let with = |window, delays, offset| {
        Frame::OpenPoly(PolyOpening {
            window,
            delays,
            offset,
            ..poly_a()
        })
    };
    let good = poly_a();
    let negative = || spans_of([(0, 10, -1)]);
    Talk::about("order of a polynomial opening")
        .refused(with(WRONG_WINDOW, negative(), -1), Refusal::Window)
        .refused(with(good.window, negative(), -1), Refusal::Delays)
        .refused(
            with(good.window, good.delays.clone(), -1),
            Refusal::Polynomial,
        )
        .done(with(good.window, good.delays, 0))
}

/// 3, 6, 5, 14.
fn queue() -> Talk {
    let with = |window, rate, delay, classes| {
        Frame::OpenQueue(QueueOpening {
            window,
            rate,
            delay,
            budgets: [-1; BUDGETS],
            ..queue_a(classes, flag::BUDGETED)
        })
    };
    let good = queue_a(1, 0);
    Talk::about("order of a queue opening")
        .refused(with(WRONG_WINDOW, 0, -1, 9), Refusal::Window)
        .refused(with(good.window, 0, -1, 9), Refusal::Volume)
        .refused(with(good.window, 1, -1, 9), Refusal::Delays)
        .refused(with(good.window, 1, 0, 9), Refusal::Classes)
        .refused(with(good.window, 1, 0, 8), Refusal::Classes)
}

/// 2 before 9.
fn booking() -> Talk {
    let none = [0; 4];
    Talk::about("order of a booking")
        .done(Frame::OpenFree(contact_a()))
        .refuses_booking(request(-1, 15, 0), none, Refusal::Bundle)
        .refuses_booking(request(0, 0, 0), none, Refusal::Bundle)
        .refuses_booking(request(0, 15, 128), none, Refusal::Bundle)
        .refuses_booking(request(0, 15, 0), none, Refusal::NotOffered)
        .refuses_booking(
            request(0, 15, 0),
            [-1, two_to(40) + 1, -1, -1],
            Refusal::NotOffered,
        )
}

/// 2 before 12 on a queue record; 12 alone on any other.
fn manual() -> Talk {
    let updating = Frame::OpenQueue(queue_a(2, flag::SELF_UPDATE));
    Talk::about("order of manual queueing")
        .done(updating)
        .refused(Frame::Enqueue(load(0, 0)), Refusal::Bundle)
        .refused(Frame::Dequeue(load(1, 200)), Refusal::Bundle)
        .refused(Frame::Enqueue(load(1, 0)), Refusal::NotManual)
        .refused(Frame::Dequeue(load(1, 0)), Refusal::NotManual)
        .queues(&[0, 0])
        .done(Frame::OpenFree(contact_a()))
        .refused(Frame::Enqueue(load(0, 200)), Refusal::NotManual)
        .refused(Frame::Dequeue(load(-1, 255)), Refusal::NotManual)
}
