//! The claim's own functions on document 01's cases.

use oracle::earliest::claim::{Booked, Contact, Place};
use oracle::frames::{RatedOpening, Span, Window};
use oracle::stated::{contact_a, request, span_of, spans_of};

fn contact(opening: &RatedOpening) -> Contact {
    Contact::of(opening).expect("a short window")
}

fn least(listed: &[(i64, i64, i64)], time: i64, size: i64, priority: u8) -> Option<Place> {
    let contact = contact(&contact_a());
    let listed: Vec<Span> = listed.iter().copied().map(span_of).collect();
    Booked::on(&contact, &listed).least(request(time, size, priority))
}

fn send(start: i64, end: i64) -> Option<Place> {
    Some(Place { start, end })
}

const FREE: [(i64, i64, i64); 1] = [(0, 10, -1)];

#[test]
fn case_8_the_first_booking() {
    assert_eq!(least(&FREE, 2, 30, 1), send(2, 5));
}

#[test]
fn case_8_an_equal_priority_waits_and_a_higher_one_does_not() {
    let booked = [(0, 2, -1), (2, 5, 1), (5, 10, -1)];
    assert_eq!(least(&booked, 0, 30, 1), send(5, 8));
    assert_eq!(least(&booked, 0, 30, 2), send(0, 3));
    // Two ticks are free before the booking, and five after it.
    assert_eq!(least(&booked, 0, 29, 1), send(0, 2));
    assert_eq!(least(&booked, 0, 50, 1), send(5, 10));
    assert_eq!(least(&booked, 0, 51, 1), None);
    assert_eq!(least(&booked, 0, 51, 2), send(0, 5));
}

/// Case 5 is of the free-volume manager; its ends are the end rule's.
#[test]
fn case_5_the_end_is_rounded_down() {
    let contact = contact(&contact_a());
    assert_eq!(contact.end_from(5, 50), Some(10));
    assert_eq!(contact.end_from(3, 29), Some(5));
    assert_eq!(contact.end_from(3, 30), Some(6));
    assert_eq!(contact.end_from(0, 100), Some(10));
    assert_eq!(contact.end_from(0, 101), None);
    assert_eq!(contact.end_from(5, 9), Some(5));
}

#[test]
fn case_6_the_end_over_two_rates() {
    let contact = contact(&RatedOpening {
        rates: spans_of([(0, 4, 2), (4, 10, 5)]),
        ..contact_a()
    });
    assert_eq!(contact.end_from(1, 11), Some(5));
    assert_eq!(contact.end_from(1, 14), Some(5));
    assert_eq!(contact.end_from(1, 6), Some(4));
    assert_eq!(contact.end_from(1, 16), Some(6));
}

/// The first tick by which the size is reached, where later ones carry nothing.
#[test]
fn ticks_that_carry_nothing() {
    let contact = contact(&RatedOpening {
        rates: spans_of([(0, 2, 0), (2, 3, 3), (3, 10, 0)]),
        ..contact_a()
    });
    assert_eq!(contact.end_from(0, 3), Some(3));
    assert_eq!(contact.end_from(0, 2), Some(2));
    assert_eq!(contact.end_from(2, 2), Some(2));
    assert_eq!(contact.end_from(3, 1), None);
}

/// A start has no length of its own, and is looked at all the same.
#[test]
fn a_send_of_zero_length_needs_its_start() {
    let booked = [(0, 4, 0), (4, 10, -1)];
    assert_eq!(least(&booked, 0, 9, 0), send(4, 4));
    assert_eq!(least(&booked, 0, 9, 1), send(0, 0));
    assert_eq!(least(&[(0, 10, 0)], 0, 9, 0), None);
}

#[test]
fn asked_times_before_in_and_after_the_window() {
    let late = RatedOpening {
        window: Window { start: 5, end: 7 },
        rates: spans_of([(5, 7, 10)]),
        delays: spans_of([(5, 7, 0)]),
    };
    let contact = contact(&late);
    let free = spans_of([(5, 7, -1)]);
    let least = |time| Booked::on(&contact, &free).least(request(time, 10, 0));
    assert_eq!(least(0), send(5, 6));
    assert_eq!(least(6), send(6, 7));
    assert_eq!(least(7), None);
    assert_eq!(least(1 << 40), None);
}

#[test]
fn a_long_window_is_not_gone_through() {
    let opening = |end| RatedOpening {
        window: Window { start: 0, end },
        rates: spans_of([(0, end, 1)]),
        delays: spans_of([(0, end, 0)]),
    };
    assert!(Contact::of(&opening(4_096)).is_some());
    assert!(Contact::of(&opening(4_097)).is_none());
}
