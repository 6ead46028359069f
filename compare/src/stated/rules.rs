//! Document 02's R-4: frames 21 to 23 under both delay rules. These stand beside
//! the stored list, and not in it.

use super::{Talk, contact_a, load, poly_a, request, spans_of, two_to};
use crate::frames::{Frame, PolyOpening, RatedOpening, Ruled, Span, Window};
use crate::refusal::Refusal;

const BOTH: [u8; 2] = [1, 2];

pub fn talks() -> Vec<Talk> {
    let mut talks = Vec::new();
    for (name, open) in over_case_7() {
        talks.push(case_7(name, &open));
        talks.push(other_dates(name, &open));
        talks.push(no_rule(name, &open));
        talks.push(other_lengths(name, &open));
        talks.push(kept(name, &open));
        talks.push(opened_again(name, &open));
    }
    talks.push(single_tick());
    talks.push(no_length());
    talks.extend(loose());
    talks.push(as_the_others());
    talks.push(other_frames());
    talks
}

/// The three managers over case 7's contact.
fn over_case_7() -> [(&'static str, Ruled); 3] {
    let delays = spans_of([(0, 4, 10), (4, 10, 2)]);
    let rated = RatedOpening {
        delays: delays.clone(),
        ..contact_a()
    };
    let poly = PolyOpening { delays, ..poly_a() };
    [
        ("free", Ruled::Free(rated.clone())),
        ("priority", Ruled::Priority(rated)),
        ("polynomial", Ruled::Poly(poly)),
    ]
}

fn opened(opening: &Ruled, rule: u8) -> Frame {
    Frame::OpenRuled(opening.clone(), rule)
}

/// At the boundary, up to it, past it, and at the window's start and end.
fn case_7(name: &str, open: &Ruled) -> Talk {
    Talk::about(format!("case 7 under both rules, {name}"))
        .done(opened(open, 1))
        .offers(request(4, 10, 0), [4, 5, 14, 7])
        .offers(request(3, 10, 0), [3, 4, 13, 14])
        .offers(request(3, 20, 0), [3, 5, 13, 7])
        .offers(request(0, 10, 0), [0, 1, 10, 11])
        .offers(request(9, 10, 0), [9, 10, 11, 12])
        .offers(request(0, 100, 0), [0, 10, 10, 12])
        .done(opened(open, 2))
        .offers(request(4, 10, 0), [4, 5, 6, 7])
        .offers(request(3, 10, 0), [3, 4, 13, 6])
        .offers(request(3, 20, 0), [3, 5, 13, 7])
        .offers(request(0, 10, 0), [0, 1, 10, 11])
        .offers(request(9, 10, 0), [9, 10, 11, 12])
        .offers(request(0, 100, 0), [0, 10, 10, 12])
        .no_offer(request(10, 1, 0))
}

/// 9 for the dates of the other rule, and for the same booking again.
fn other_dates(name: &str, open: &Ruled) -> Talk {
    let asked = request(4, 10, 0);
    let mut talk = Talk::about(format!("the other rule's dates, {name}"));
    for (rule, dates, other) in [
        (1, [4, 5, 14, 7], [4, 5, 6, 7]),
        (2, [4, 5, 6, 7], [4, 5, 14, 7]),
    ] {
        talk = talk
            .done(opened(open, rule))
            .refuses_booking(asked, other, Refusal::NotOffered)
            .refuses_booking(request(4, 0, 0), dates, Refusal::Bundle)
            .books(asked, dates)
            .refuses_booking(asked, dates, Refusal::NotOffered);
    }
    talk
}

/// 2 "before all else": before 3 too.
fn no_rule(name: &str, open: &Ruled) -> Talk {
    let mut talk = Talk::about(format!("a rule that is none, {name}")).done(opened(open, 2));
    for rule in [0, 3, 4, 127, 128, 129, 130, 254, 255] {
        talk = talk.refused(opened(open, rule), Refusal::Bundle);
        talk = talk.refused(opened(&backward(open), rule), Refusal::Bundle);
    }
    for rule in BOTH {
        talk = talk.refused(opened(&backward(open), rule), Refusal::Window);
    }
    talk.offers(request(4, 10, 0), [4, 5, 6, 7])
}

fn backward(open: &Ruled) -> Ruled {
    let mut open = open.clone();
    let window = match &mut open {
        Ruled::Free(contact) | Ruled::Priority(contact) => &mut contact.window,
        Ruled::Poly(contact) => &mut contact.window,
    };
    *window = Window { start: 9, end: 9 };
    open
}

/// ff: no rule byte, half of one, two of them; and one after frames 01 to 03.
fn other_lengths(name: &str, open: &Ruled) -> Talk {
    let mut talk = Talk::about(format!("other lengths, {name}")).done(opened(open, 2));
    for rule in [0, 1, 2, 3] {
        let ruled = opened(open, rule).encode();
        let plain = open.clone().plain().encode();
        let byte = format!("{rule:02x}").into_bytes();
        for line in [
            ruled[..ruled.len() - 2].to_vec(),
            ruled[..ruled.len() - 1].to_vec(),
            [&ruled[..], b"0"].concat(),
            [&ruled[..], &byte].concat(),
            [&plain[..], &byte].concat(),
        ] {
            talk = talk.line(&line, b"ff");
        }
    }
    talk.offers(request(4, 10, 0), [4, 5, 6, 7])
}

/// A refused opening keeps the old record, with its rule.
fn kept(name: &str, open: &Ruled) -> Talk {
    let gap = Ruled::Poly(PolyOpening {
        delays: spans_of([(0, 4, 10), (5, 10, 2)]),
        ..poly_a()
    });
    let mut talk = Talk::about(format!("the old record is kept, {name}"));
    for (rule, dates) in [(1, [4, 5, 14, 7]), (2, [4, 5, 6, 7])] {
        talk = talk
            .done(opened(open, rule))
            .refused(opened(open, 3), Refusal::Bundle)
            .refused(opened(&backward(open), 2), Refusal::Window)
            .refused(opened(&gap, 2), Refusal::Delays)
            .refused(backward(open).plain(), Refusal::Window)
            .books(request(4, 10, 0), dates);
    }
    talk
}

/// Each opening chooses anew, and frames 01 to 03 open with rule 1.
fn opened_again(name: &str, open: &Ruled) -> Talk {
    let asked = request(4, 10, 0);
    Talk::about(format!("openings choose anew, {name}"))
        .done(opened(open, 2))
        .offers(asked, [4, 5, 6, 7])
        .done(open.clone().plain())
        .offers(asked, [4, 5, 14, 7])
        .done(opened(open, 2))
        .offers(asked, [4, 5, 6, 7])
        .done(opened(open, 1))
        .offers(asked, [4, 5, 14, 7])
}

/// Two boundaries a tick apart: each date is looked up by itself.
fn single_tick() -> Talk {
    let open = Ruled::Free(RatedOpening {
        delays: spans_of([(0, 3, 1), (3, 4, 20), (4, 10, 7)]),
        ..contact_a()
    });
    Talk::about("a delay of a single tick")
        .done(opened(&open, 1))
        .offers(request(3, 10, 0), [3, 4, 4, 24])
        .offers(request(2, 20, 0), [2, 4, 3, 24])
        .done(opened(&open, 2))
        .offers(request(3, 10, 0), [3, 4, 23, 11])
        .offers(request(2, 20, 0), [2, 4, 3, 11])
        .offers(request(2, 10, 0), [2, 3, 3, 23])
}

/// A send of zero length at the boundary has the later delay twice.
fn no_length() -> Talk {
    let [(_, free), (_, priority), _] = over_case_7();
    Talk::about("zero length at a boundary")
        .done(opened(&free, 1))
        .offers(request(4, 9, 0), [4, 4, 14, 14])
        .done(opened(&free, 2))
        .books(request(4, 9, 0), [4, 4, 6, 6])
        .lists(&[(0, 4, 40)])
        .room(40)
        .done(opened(&priority, 2))
        .books(request(4, 9, 1), [4, 4, 6, 6])
        .lists(&[(0, 4, -1), (4, 4, 1), (4, 10, -1)])
}

// ---------------------------------------------------------------------------
// The polynomial manager's delays

/// Delays that do not cover open under rule 1 alone: 5 under rule 2.
fn loose() -> Vec<Talk> {
    let lists: [(&str, Vec<Span>); 10] = [
        ("none", vec![]),
        ("a gap", spans_of([(0, 4, 10), (5, 10, 2)])),
        ("an overlap", spans_of([(0, 5, 10), (4, 10, 2)])),
        ("a late start", spans_of([(1, 4, 10), (4, 10, 2)])),
        ("an early end", spans_of([(0, 4, 10), (4, 9, 2)])),
        ("a late end", spans_of([(0, 4, 10), (4, 11, 2)])),
        (
            "an empty one",
            spans_of([(0, 4, 10), (4, 4, 1), (4, 10, 2)]),
        ),
        (
            "a backward one",
            spans_of([(0, 6, 10), (6, 4, 1), (4, 10, 2)]),
        ),
        ("out of order", spans_of([(4, 10, 2), (0, 4, 10)])),
        ("the whole twice", spans_of([(0, 10, 2), (0, 10, 2)])),
    ];
    let about = |(name, delays): (&str, Vec<Span>)| {
        let open = Ruled::Poly(PolyOpening { delays, ..poly_a() });
        Talk::about(format!("delays that do not cover: {name}"))
            .done(opened(&open, 1))
            .refused(opened(&open, 2), Refusal::Delays)
            .refused(opened(&open, 3), Refusal::Bundle)
            .refused(opened(&backward(&open), 2), Refusal::Window)
            .refused(opened(&steep(&open), 2), Refusal::Delays)
            .refused(opened(&steep(&open), 1), Refusal::Polynomial)
            .lists(&[(0, 10, 0)])
    };
    lists.into_iter().map(about).collect()
}

/// The same with a coefficient out of the range rule: 11, after 5.
fn steep(open: &Ruled) -> Ruled {
    match open {
        Ruled::Poly(contact) => Ruled::Poly(PolyOpening {
            coefficients: [two_to(61), 0, 0, 0],
            ..contact.clone()
        }),
        other => other.clone(),
    }
}

/// Counts and limits under rule 2 are those of the other managers' lists.
fn as_the_others() -> Talk {
    let ticks = |count: i64| {
        let window = Window {
            start: 0,
            end: count,
        };
        let delays = (0..count).map(|tick| Span {
            start: tick,
            end: tick + 1,
            value: count - tick,
        });
        let delays = delays.collect();
        Ruled::Poly(PolyOpening {
            window,
            delays,
            ..poly_a()
        })
    };
    let delayed = |delay| {
        Ruled::Poly(PolyOpening {
            delays: spans_of([(0, 10, delay)]),
            ..poly_a()
        })
    };
    Talk::about("the polynomial manager's delays under rule 2")
        .refused(opened(&delayed(two_to(40) + 1), 2), Refusal::Delays)
        .refused(opened(&delayed(-1), 2), Refusal::Delays)
        .done(opened(&delayed(two_to(40)), 2))
        .offers(request(9, 10, 0), [9, 10, 9 + two_to(40), 10 + two_to(40)])
        .refused(opened(&ticks(17), 2), Refusal::Delays)
        .refused(opened(&steep(&ticks(16)), 2), Refusal::Polynomial)
        .done(opened(&ticks(16), 2))
        .offers(request(7, 10, 0), [7, 8, 16, 16])
        .offers(request(15, 10, 0), [15, 16, 16, 17])
}

/// The other frames on records of rule 2.
fn other_frames() -> Talk {
    let [(_, free), (_, priority), (_, poly)] = over_case_7();
    let manual = |talk: Talk| {
        talk.refused(Frame::Enqueue(load(1, 0)), Refusal::NotManual)
            .refused(Frame::Dequeue(load(0, 200)), Refusal::NotManual)
    };
    let talk = Talk::about("other frames under rule 2")
        .done(opened(&free, 2))
        .books(request(3, 15, 0), [3, 4, 13, 6])
        .lists(&[(0, 3, 30), (4, 10, 60)])
        .room(90);
    let talk = manual(talk)
        .done(opened(&priority, 2))
        .books(request(4, 30, 1), [4, 7, 6, 9])
        .lists(&[(0, 4, -1), (4, 7, 1), (7, 10, -1)])
        .refused(Frame::Room, Refusal::NotManual);
    let talk = manual(talk)
        .done(opened(&poly, 2))
        .books(request(4, 30, 0), [4, 7, 6, 9])
        .lists(&[(0, 4, 0), (7, 10, 0)])
        .refused(Frame::Room, Refusal::NotManual);
    manual(talk)
}
