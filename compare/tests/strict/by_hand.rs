//! Document 01's cases under the flag, and others worked out by hand.

use oracle::editions::terms::{FIRST, Opening as Rated, SECOND};
use oracle::frames::RatedOpening;
use oracle::modes::terms::{EXACT, Opening as Poly, PORTED};
use oracle::rules::{EARLIER, LATER};
use oracle::stated::{contact_a, poly_a, request, spans_of};
use oracle::strict::calls::Calls;
use oracle::strict::flag::{OFF, ON};
use oracle::strict::reading::Reading;
use oracle::strict::terms::{Call, Manager, Opening};
use oracle::trial::answers::Said;
use oracle::trial::choices::Chosen;

use super::{book, contact, list, opened, plain, shown, stated};

fn rated(manager: Manager, chosen: Chosen, contact: RatedOpening) -> Reading {
    opened(manager, Opening::Rated(Rated::of(chosen, contact)))
}

/// The request's own case: a small bundle no longer loses the rest of a stretch.
#[test]
fn case_3_is_shown_and_not_booked() {
    let mut off = contact(Manager::Free, OFF);
    assert_eq!(book(&mut off, 5, 9, 0), 0);
    assert_eq!(list(&mut off), [(0, 5, 50)]);

    let mut strict = contact(Manager::Free, ON);
    assert_eq!(shown(&mut strict, request(5, 9, 0)), Ok([5, 5, 8, 8]));
    assert_eq!(book(&mut strict, 5, 9, 0), 17);
    assert_eq!(list(&mut strict), [(0, 10, 100)]);
    assert_eq!(strict.ask(&Call::Room), Said::Room(100));
    assert_eq!(shown(&mut strict, request(5, 9, 0)), Ok([5, 5, 8, 8]));
    assert_eq!(book(&mut strict, 5, 9, 0), 17);
}

/// And no empty entry is left that breaks a later run.
#[test]
fn case_9_is_shown_and_not_booked() {
    let mut off = contact(Manager::Priority, OFF);
    assert_eq!(book(&mut off, 5, 9, 0), 0);
    assert_eq!(list(&mut off), [(0, 5, -1), (5, 5, 0), (5, 10, -1)]);
    assert_eq!(shown(&mut off, request(0, 100, 0)), Err(7));

    let mut strict = contact(Manager::Priority, ON);
    assert_eq!(shown(&mut strict, request(5, 9, 0)), Ok([5, 5, 8, 8]));
    assert_eq!(book(&mut strict, 5, 9, 0), 17);
    assert_eq!(list(&mut strict), [(0, 10, -1)]);
    assert_eq!(shown(&mut strict, request(0, 100, 0)), Ok([0, 10, 3, 13]));
}

/// The other cases, in which every send has a length.
#[test]
fn cases_1_2_4_and_8_are_as_with_the_flag_off() {
    for strict in [OFF, ON] {
        let mut free = contact(Manager::Free, strict);
        assert_eq!(book(&mut free, 3, 15, 0), 0);
        assert_eq!(list(&mut free), [(0, 3, 30), (4, 10, 60)]);
        let mut free = contact(Manager::Free, strict);
        assert_eq!(book(&mut free, 0, 15, 0), 0);
        assert_eq!(list(&mut free), [(1, 10, 85)]);
        let mut free = contact(Manager::Free, strict);
        assert_eq!(shown(&mut free, request(0, 101, 0)), Err(7));
        assert_eq!(book(&mut free, 0, 100, 0), 0);
        assert_eq!(list(&mut free), [(10, 10, 0)]);

        let mut priority = contact(Manager::Priority, strict);
        assert_eq!(book(&mut priority, 2, 30, 1), 0);
        assert_eq!(book(&mut priority, 0, 30, 2), 0);
        assert_eq!(
            list(&mut priority),
            [(0, 2, 2), (2, 3, 2), (3, 5, 1), (5, 10, -1)]
        );
    }
}

/// At the start of a segment a send of zero length takes its size off the listed
/// volume; that is refused too.
#[test]
fn at_a_segments_start() {
    let mut off = contact(Manager::Free, OFF);
    assert_eq!(shown(&mut off, request(0, 9, 0)), Ok([0, 0, 3, 3]));
    assert_eq!(book(&mut off, 0, 9, 0), 0);
    assert_eq!(list(&mut off), [(0, 10, 91)]);

    let mut strict = contact(Manager::Free, ON);
    assert_eq!(book(&mut strict, 0, 9, 0), 17);
    assert_eq!(list(&mut strict), [(0, 10, 100)]);
}

/// On a boundary a send of zero length changes nothing; it is refused all the same.
#[test]
fn on_a_boundary() {
    for (strict, number) in [(OFF, 0), (ON, 17)] {
        let mut reading = contact(Manager::Priority, strict);
        assert_eq!(book(&mut reading, 2, 30, 1), 0);
        let before = list(&mut reading);
        assert_eq!(shown(&mut reading, request(2, 9, 2)), Ok([2, 2, 5, 5]));
        assert_eq!(book(&mut reading, 2, 9, 2), number);
        assert_eq!(list(&mut reading), before);
    }
}

/// Equal dates alone are refused, whatever else a send lacks: 19 units go into one
/// tick of ten, and time that carries nothing has a length.
#[test]
fn only_equal_dates_are_refused() {
    for manager in [Manager::Free, Manager::Priority] {
        for (size, number) in [(1, 17), (9, 17), (10, 0), (11, 0), (19, 0), (20, 0)] {
            let mut strict = contact(manager, ON);
            assert_eq!(book(&mut strict, 4, size, 0), number, "{manager} {size}");
        }
        let carries_later = RatedOpening {
            rates: spans_of([(0, 5, 0), (5, 10, 10)]),
            ..contact_a()
        };
        let mut strict = rated(manager, plain(ON), carries_later);
        assert_eq!(shown(&mut strict, request(5, 4, 0)), Ok([5, 5, 8, 8]));
        assert_eq!(book(&mut strict, 5, 4, 0), 17);
        assert_eq!(shown(&mut strict, request(0, 4, 0)), Ok([0, 5, 3, 8]));
        assert_eq!(book(&mut strict, 0, 4, 0), 0);
    }
}

/// A segment that ends at the asked time is not skipped: at its end, a tick that is
/// booked, a small bundle is shown.
#[test]
fn at_a_tick_that_is_booked() {
    for (strict, number) in [(OFF, 0), (ON, 17)] {
        let mut reading = contact(Manager::Free, strict);
        assert_eq!(book(&mut reading, 5, 50, 0), 0);
        assert_eq!(shown(&mut reading, request(5, 9, 0)), Ok([5, 5, 8, 8]));
        assert_eq!(book(&mut reading, 5, 9, 0), number);
    }
}

/// Under either rule a send's two equal dates have one delay.
#[test]
fn under_both_rules() {
    let case_7 = RatedOpening {
        delays: spans_of([(0, 4, 10), (4, 10, 2)]),
        ..contact_a()
    };
    for (rule, received) in [(EARLIER, 14), (LATER, 6)] {
        for manager in [Manager::Free, Manager::Priority] {
            let chosen = Chosen { rule, ..plain(ON) };
            let mut strict = rated(manager, chosen, case_7.clone());
            let dates = [4, 4, received, received];
            assert_eq!(shown(&mut strict, request(4, 9, 0)), Ok(dates));
            assert_eq!(book(&mut strict, 4, 9, 0), 17);
            assert_eq!(book(&mut strict, 4, 10, 0), 0);
        }
    }
}

/// Receive dates that are equal are no equal send dates.
#[test]
fn equal_receive_dates_are_booked() {
    let falls = RatedOpening {
        delays: spans_of([(0, 4, 10), (4, 10, 9)]),
        ..contact_a()
    };
    let chosen = Chosen {
        rule: LATER,
        ..plain(ON)
    };
    let mut strict = rated(Manager::Free, chosen, falls);
    assert_eq!(shown(&mut strict, request(3, 10, 0)), Ok([3, 4, 13, 13]));
    assert_eq!(book(&mut strict, 3, 10, 0), 0);
}

/// Under edition 2 a small bundle has its tick, and the flag finds nothing.
#[test]
fn edition_2_has_nothing_to_refuse() {
    for manager in [Manager::Free, Manager::Priority] {
        for (kind, dates, number) in [(FIRST, [5, 5, 8, 8], 17), (SECOND, [5, 6, 8, 9], 0)] {
            let chosen = Chosen { kind, ..plain(ON) };
            let mut strict = rated(manager, chosen, contact_a());
            assert_eq!(shown(&mut strict, request(5, 9, 0)), Ok(dates));
            assert_eq!(book(&mut strict, 5, 9, 0), number);
        }
    }
}

/// Nor does it at the polynomial manager, whose end has enough.
#[test]
fn case_10_has_nothing_to_refuse() {
    for mode in [PORTED, EXACT] {
        let chosen = Chosen {
            kind: mode,
            ..plain(ON)
        };
        let opening = Opening::Poly(Poly::of(chosen, poly_a()));
        let mut strict = opened(Manager::Poly, opening);
        assert_eq!(shown(&mut strict, request(3, 15, 0)), Ok([3, 5, 6, 8]));
        assert_eq!(shown(&mut strict, request(3, 1, 0)), Ok([3, 4, 6, 7]));
        assert_eq!(book(&mut strict, 3, 1, 0), 0);
        assert_eq!(list(&mut strict), [(0, 3, 0), (4, 10, 0)]);
        assert_eq!(stated(&mut strict, request(4, 1, 0), [4, 4, 7, 7]), 9);
    }
}

/// As many bookings as the window has ticks, and not one more: each takes a tick.
#[test]
fn a_booking_for_each_tick() {
    let mut strict = contact(Manager::Free, ON);
    for time in 0..10 {
        assert_eq!(book(&mut strict, time, 9, 0), 17);
        assert_eq!(book(&mut strict, time, 10, 0), 0);
    }
    assert_eq!(list(&mut strict), [(10, 10, 0)]);
    for time in 0..=10 {
        for size in 1..=10 {
            assert_eq!(shown(&mut strict, request(time, size, 0)), Err(7));
        }
    }

    // With the flag off a contact takes any number of them.
    let mut off = contact(Manager::Free, OFF);
    for _ in 0..100 {
        assert_eq!(book(&mut off, 0, 1, 0), 0);
    }
    assert_eq!(list(&mut off), [(0, 10, 0)]);
}
