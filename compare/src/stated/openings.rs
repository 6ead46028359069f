//! Openings that are refused, one fault at a time, and those just beside.

use super::{Talk, contact_a, poly_a, queue_a, request, span_of, spans_of, two_to};
use crate::frames::{BUDGETS, Frame, PolyOpening, QueueOpening, RatedOpening, Span, Window, flag};
use crate::refusal::Refusal;

pub fn talks() -> Vec<Talk> {
    let mut talks = lists();
    talks.extend(rates());
    talks.push(loose_delays());
    talks.extend(polynomials());
    talks.extend(queues());
    talks.push(refused_keeps_the_old());
    talks
}

/// Tiles 1 to `count` ticks and then the rest of contact A's window, or a
/// longer one where the count asks for it.
fn tiled(count: i64, end: i64, value: i64) -> Vec<Span> {
    let ticks = (0..count - 1).map(|tick| span_of((tick, tick + 1, value)));
    ticks.chain([span_of((count - 1, end, value))]).collect()
}

/// Lists that do not tile [0,10), each for one reason.
fn not_tiling() -> Vec<(&'static str, Vec<Span>)> {
    vec![
        ("no segment", spans_of([])),
        ("an empty one first", spans_of([(0, 0, 1), (0, 10, 1)])),
        ("an empty one last", spans_of([(0, 10, 1), (10, 10, 1)])),
        ("backward", spans_of([(0, 12, 1), (12, 10, 1)])),
        ("backward alone", spans_of([(10, 0, 1)])),
        ("a gap", spans_of([(0, 4, 1), (5, 10, 1)])),
        ("an overlap", spans_of([(0, 5, 1), (4, 10, 1)])),
        ("starts early", spans_of([(-1, 10, 1)])),
        ("starts late", spans_of([(1, 10, 1)])),
        ("ends early", spans_of([(0, 9, 1)])),
        ("ends late", spans_of([(0, 11, 1)])),
        ("in another order", spans_of([(5, 10, 1), (0, 5, 1)])),
        ("far outside", spans_of([(i64::MIN, i64::MAX, 1)])),
    ]
}

fn lists() -> Vec<Talk> {
    let mut talks = Vec::new();
    for open in [Frame::OpenFree, Frame::OpenPriority] {
        for (about, spans) in not_tiling() {
            talks.push(
                Talk::about(about)
                    .refused(
                        open(RatedOpening {
                            rates: spans.clone(),
                            ..contact_a()
                        }),
                        Refusal::Rates,
                    )
                    .refused(
                        open(RatedOpening {
                            delays: spans,
                            ..contact_a()
                        }),
                        Refusal::Delays,
                    ),
            );
        }
        talks.push(counts(open));
    }
    talks
}

/// 16 segments open, 17 are refused, for rates and for delays.
fn counts(open: fn(RatedOpening) -> Frame) -> Talk {
    let window = Window { start: 0, end: 20 };
    let with = |rates, delays| {
        open(RatedOpening {
            window,
            rates: tiled(rates, 20, 1),
            delays: tiled(delays, 20, 1),
        })
    };
    Talk::about("counts")
        .done(with(16, 16))
        .refused(with(17, 16), Refusal::Rates)
        .refused(with(16, 17), Refusal::Delays)
        .refused(with(17, 17), Refusal::Rates)
}

fn rates() -> Vec<Talk> {
    let tick = Window { start: 0, end: 1 };
    let rated = |rate| RatedOpening {
        window: tick,
        rates: spans_of([(0, 1, rate)]),
        delays: spans_of([(0, 1, 0)]),
    };
    let queue = |rate| {
        Frame::OpenQueue(QueueOpening {
            window: tick,
            rate,
            ..queue_a(1, 0)
        })
    };
    let mut talks = Vec::new();
    for open in [Frame::OpenFree, Frame::OpenPriority] {
        talks.push(
            Talk::about("rates")
                .done(open(rated(0)))
                .done(open(rated(two_to(38))))
                .refused(open(rated(-1)), Refusal::Volume)
                .refused(open(rated(two_to(38) + 1)), Refusal::Volume)
                .refused(open(rated(i64::MAX)), Refusal::Volume)
                .offers(request(0, two_to(38), 0), [0, 1, 0, 1]),
        );
    }
    talks.push(
        Talk::about("rates, queue")
            .done(queue(1))
            .done(queue(two_to(38)))
            .refused(queue(0), Refusal::Volume)
            .refused(queue(-1), Refusal::Volume)
            .refused(queue(two_to(38) + 1), Refusal::Volume)
            .offers(request(0, two_to(38), 0), [0, 1, 3, 4]),
    );
    talks
}

/// The polynomial manager's delays: any order, empty, backward, overlapping or
/// none at all, but each number in its limits.
fn loose_delays() -> Talk {
    let with = |delays| Frame::OpenPoly(PolyOpening { delays, ..poly_a() });
    let mut talk = Talk::about("delays, polynomial").done(with(Vec::new()));
    for (_, delays) in not_tiling() {
        let outside = delays.iter().any(|span| span.start < 0);
        talk = match outside {
            true => talk.refused(with(delays), Refusal::Delays),
            false => talk.done(with(delays)),
        };
    }
    talk.done(with(tiled(16, 20, 1)))
        .refused(with(tiled(17, 20, 1)), Refusal::Delays)
        .done(with(spans_of([(two_to(40), two_to(40), two_to(40))])))
        .refused(with(spans_of([(0, two_to(40) + 1, 0)])), Refusal::Delays)
        .refused(with(spans_of([(two_to(40) + 1, 0, 0)])), Refusal::Delays)
}

fn polynomials() -> Vec<Talk> {
    let with = |window, offset, coefficients| {
        Frame::OpenPoly(PolyOpening {
            window,
            offset,
            coefficients,
            delays: Vec::new(),
        })
    };
    let tick = Window { start: 0, end: 1 };
    let two = Window { start: 0, end: 2 };
    let most = two_to(61);
    let refused = Refusal::Polynomial;
    vec![
        Talk::about("offset")
            .done(with(tick, 0, [0; 4]))
            .done(with(tick, two_to(40), [0; 4]))
            .refused(with(tick, -1, [0; 4]), refused)
            .refused(with(tick, two_to(40) + 1, [0; 4]), refused),
        Talk::about("coefficients")
            .done(with(tick, 0, [most, 0, 0, 0]))
            .done(with(tick, 0, [-most, 0, 0, 0]))
            .refused(with(tick, 0, [most + 1, 0, 0, 0]), refused)
            .refused(with(tick, 0, [-most - 1, 0, 0, 0]), refused)
            // Its quotient by 4 would be in range.
            .refused(with(tick, 0, [0, 0, 0, most + 1]), refused)
            .done(with(tick, 0, [0, 0, 0, most]))
            .refused(with(tick, 0, [i64::MIN, 0, 0, 0]), refused),
        Talk::about("range rule, one step")
            .done(with(two, 0, [most / 2, 0, 0, 0]))
            .refused(with(two, 0, [most / 2 + 1, 0, 0, 0]), refused)
            .refused(with(two, 0, [-most / 2 - 1, 0, 0, 0]), refused)
            // Seen from the middle no window end is farther than 1.
            .done(with(two, 1, [most, 0, 0, 0])),
        Talk::about("range rule, quotients and signs")
            // 2^60 + 2^60 passes no bound, and one more does.
            .done(with(tick, 0, [most / 2, most, 0, 0]))
            .done(with(tick, 0, [most / 2, most, 0, 3]))
            .refused(with(tick, 0, [most / 2 + 1, most, 0, 0]), refused)
            // The signs do not help: absolute values are added.
            .refused(with(tick, 0, [-most / 2 - 1, most, 0, 0]), refused)
            .refused(with(tick, 0, [most / 2, most, 3, 0]), refused)
            .done(with(tick, 0, [most / 2, most, 2, 0])),
        Talk::about("range rule, the last product")
            .done(with(
                Window {
                    start: 0,
                    end: two_to(24),
                },
                0,
                [two_to(37), 0, 0, 0],
            ))
            .refused(
                with(
                    Window {
                        start: 0,
                        end: two_to(24),
                    },
                    0,
                    [(two_to(37)) + 1, 0, 0, 0],
                ),
                refused,
            )
            .refused(with(tick, two_to(40), [(two_to(21)) + 1, 0, 0, 0]), refused)
            .done(with(tick, two_to(40), [two_to(21), 0, 0, 0])),
    ]
}

fn queues() -> Vec<Talk> {
    let budgeted = |classes, budgets| {
        Frame::OpenQueue(QueueOpening {
            budgets,
            ..queue_a(classes, flag::BUDGETED)
        })
    };
    let unbudgeted = |budgets| {
        Frame::OpenQueue(QueueOpening {
            budgets,
            ..queue_a(8, 0)
        })
    };
    let at = |class: usize, budget| {
        let mut budgets = [0; BUDGETS];
        budgets[class] = budget;
        budgets
    };
    let mut classes = Talk::about("class counts");
    for flags in 0..=flag::ALL {
        for count in 0..=u8::MAX {
            let open = Frame::OpenQueue(queue_a(count, flags));
            classes = match count {
                1..=8 => classes.done(open),
                0 | 9..=17 | 255 => classes.refused(open, Refusal::Classes),
                _ => classes,
            };
        }
    }
    let mut budgets = Talk::about("budgets");
    for class in 0..BUDGETS {
        budgets = budgets
            .done(budgeted(8, at(class, two_to(38))))
            .refused(budgeted(8, at(class, two_to(38) + 1)), Refusal::Classes)
            .refused(budgeted(8, at(class, -1)), Refusal::Classes)
            .refused(unbudgeted(at(class, 1)), Refusal::Classes)
            .done(budgeted(class as u8 + 1, at(class, 1)));
    }
    for class in 1..BUDGETS {
        budgets = budgets.refused(budgeted(class as u8, at(class, 1)), Refusal::Classes);
    }
    vec![classes, budgets]
}

/// Whatever is refused, the old record answers on.
fn refused_keeps_the_old() -> Talk {
    let wrong = Window { start: 1, end: 1 };
    let mut talk = Talk::about("a refused opening keeps the old record")
        .done(Frame::OpenFree(contact_a()))
        .books(request(3, 15, 0), [3, 4, 6, 7]);
    let refused = [
        Frame::OpenFree(RatedOpening {
            window: wrong,
            ..contact_a()
        }),
        Frame::OpenPriority(RatedOpening {
            window: wrong,
            ..contact_a()
        }),
        Frame::OpenPoly(PolyOpening {
            window: wrong,
            ..poly_a()
        }),
        Frame::OpenQueue(QueueOpening {
            window: wrong,
            ..queue_a(1, 0)
        }),
    ];
    for open in refused {
        talk = talk
            .refused(open, Refusal::Window)
            .lists(&[(0, 3, 30), (4, 10, 60)]);
    }
    talk.line(b"0", b"ff").lists(&[(0, 3, 30), (4, 10, 60)])
}
