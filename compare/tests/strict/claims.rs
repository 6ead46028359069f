//! R-7's claims see what breaks them, whatever a reading says.

use oracle::editions::terms::{FIRST, SECOND};
use oracle::frames::{Dates, Span};
use oracle::stated::{request, spans_of};
use oracle::strict::claims::{Fresh, hold_length, hold_number};
use oracle::strict::flag::{OFF, ON};
use oracle::strict::terms::Manager;

use super::opening_a;

fn fresh(manager: Manager, strict: u64) -> Fresh {
    Fresh::of(manager, &opening_a(manager, strict))
}

#[test]
fn what_is_booked_has_a_length() {
    for (start, end, fits) in [(5, 5, false), (5, 4, false), (5, 6, true)] {
        let dates = Dates([start, end, 8, 8]);
        assert_eq!(hold_length(ON, dates).is_ok(), fits);
        assert_eq!(hold_length(OFF, dates), Ok(false));
    }
}

#[test]
fn edition_2_and_polynomials_have_no_17() {
    for manager in [Manager::Free, Manager::Priority] {
        assert!(hold_number(manager, SECOND, 17).is_err());
        assert!(hold_number(manager, FIRST, 17).is_ok());
        assert!(hold_number(manager, SECOND, 9).is_ok());
    }
    for mode in [1, 2] {
        assert!(hold_number(Manager::Poly, mode, 17).is_err());
        assert!(hold_number(Manager::Poly, mode, 10).is_ok());
    }
    assert!(hold_number(Manager::Queue, 0, 17).is_ok());
}

/// Tick by tick: a send without a length, and a tick that is booked twice.
#[test]
fn free_volume_bookings_have_a_tick_each() {
    let tick = |start: i64| Dates([start, start + 1, start + 3, start + 4]);
    let asked = request(0, 10, 0);
    let mut strict = fresh(Manager::Free, ON);
    for start in 0..10 {
        assert_eq!(strict.book(asked, tick(start)), Ok(true));
    }
    assert!(strict.book(asked, tick(4)).is_err());

    let small = request(0, 1, 0);
    let empty = Dates([5, 5, 8, 8]);
    assert!(fresh(Manager::Free, ON).book(small, empty).is_err());
    assert_eq!(fresh(Manager::Free, OFF).book(small, empty), Ok(false));
}

/// Where a window has too many ticks to go through, bookings are counted.
#[test]
fn bookings_are_counted() {
    let mut opening = opening_a(Manager::Free, ON);
    let oracle::strict::terms::Opening::Rated(rated) = &mut opening else {
        panic!("a contact with rates");
    };
    let length = 5_000;
    rated.contact.window.end = length;
    rated.contact.rates[0].end = length;
    let mut strict = Fresh::of(Manager::Free, &opening);
    let asked = request(0, 10, 0);
    for _ in 0..length {
        assert_eq!(strict.book(asked, Dates([0, 1, 3, 4])), Ok(true));
    }
    assert!(strict.book(asked, Dates([0, 1, 3, 4])).is_err());
}

#[test]
fn no_empty_priority_segment_is_listed() {
    let empty: Vec<Span> = spans_of([(0, 5, -1), (5, 5, 0), (5, 10, -1)]);
    let filled: Vec<Span> = spans_of([(0, 5, -1), (5, 6, 0), (6, 10, -1)]);
    let strict = fresh(Manager::Priority, ON);
    assert!(strict.see(&empty).is_err());
    assert_eq!(strict.see(&filled), Ok(true));
    // Nothing is said with the flag off, and free lists may end with an empty one.
    assert_eq!(fresh(Manager::Priority, OFF).see(&empty), Ok(false));
    assert_eq!(fresh(Manager::Free, ON).see(&empty), Ok(false));
}

/// Demand 3 is held with either flag.
#[test]
fn free_lists_are_seen() {
    for strict in [OFF, ON] {
        let mut claims = fresh(Manager::Free, strict);
        let asked = request(3, 15, 0);
        claims.book(asked, Dates([3, 4, 6, 7])).expect("it fits");
        let left = spans_of([(0, 3, 30), (4, 10, 60)]);
        assert!(claims.see_free(&left, 90).is_ok());
        assert!(claims.see_free(&left, 91).is_err());
        let shared = spans_of([(0, 4, 40), (5, 10, 50)]);
        assert!(claims.see_free(&shared, 90).is_err());
    }
}
