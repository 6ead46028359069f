//! Demand 3's sums see what breaks them, whatever a reading says.

use oracle::editions::sums::Sums;
use oracle::editions::terms::{FIRST, SECOND};
use oracle::frames::{Dates, Span};
use oracle::stated::spans_of;

use super::{opening_a, rated_a};

/// Contact A with one booking: size, send start and send end.
fn booked(edition: u64, size: i64, start: i64, end: i64) -> Result<Sums, String> {
    let mut sums = Sums::of(&opening_a(edition)).expect("a short window");
    sums.book(size, Dates([start, end, start + 3, end + 3]))?;
    Ok(sums)
}

#[test]
fn sizes_stay_between_their_bounds() {
    for (size, fits) in [(20, true), (19, true), (11, true), (10, false), (21, false)] {
        assert_eq!(booked(SECOND, size, 3, 5).is_ok(), fits, "{size}");
    }
    for (size, fits) in [(20, true), (29, true), (30, false), (19, false)] {
        assert_eq!(booked(FIRST, size, 3, 5).is_ok(), fits, "{size}");
    }
}

#[test]
fn a_send_has_a_length_under_edition_2() {
    assert!(booked(FIRST, 9, 5, 5).is_ok());
    assert!(booked(SECOND, 9, 5, 5).is_err());
    assert!(booked(SECOND, 9, 5, 4).is_err());
    assert!(booked(SECOND, 10, 10, 11).is_err());
}

#[test]
fn an_instant_is_booked_once_and_not_listed() {
    let mut sums = booked(SECOND, 20, 3, 5).expect("it fits");
    assert!(sums.book(10, Dates([5, 6, 8, 9])).is_ok());
    assert!(sums.book(10, Dates([4, 5, 7, 8])).is_err());

    let sums = booked(SECOND, 20, 3, 5).expect("it fits");
    let see = |listed: Vec<Span>| sums.see(&listed, listed.iter().map(|span| span.value).sum());
    assert!(see(spans_of([(0, 3, 30), (5, 10, 50)])).is_ok());
    assert!(see(spans_of([(0, 4, 40), (5, 10, 50)])).is_err());
    assert!(see(spans_of([(0, 3, 30), (4, 10, 60)])).is_err());
    assert!(see(spans_of([(0, 3, 30), (6, 10, 40)])).is_ok());
}

#[test]
fn listed_volumes_are_exact_and_the_room_is_their_sum() {
    let listed = spans_of([(0, 3, 30), (5, 10, 45)]);
    assert!(booked(FIRST, 20, 3, 5).unwrap().see(&listed, 75).is_ok());
    assert!(booked(FIRST, 20, 3, 5).unwrap().see(&listed, 74).is_err());
    assert!(booked(SECOND, 20, 3, 5).unwrap().see(&listed, 75).is_err());
    let listed = spans_of([(0, 3, 30), (5, 10, 50)]);
    let sums = booked(SECOND, 20, 3, 5).unwrap();
    assert!(sums.see(&listed, 80).is_ok());
    assert!(sums.see(&listed, 81).is_err());
    assert!(sums.see(&[], 0).is_err());
    let touching = spans_of([(0, 1, 10), (1, 3, 20)]);
    assert!(sums.see(&touching, 30).is_err());
}

/// R is the highest rate of the contact, not the one that is booked.
#[test]
fn the_bound_is_the_highest_rates() {
    let mut sums = Sums::of(&rated_a(SECOND, [(0, 4, 2), (4, 10, 5)])).unwrap();
    assert!(sums.book(5, Dates([1, 5, 4, 8])).is_err());
    let mut sums = Sums::of(&rated_a(SECOND, [(0, 4, 2), (4, 10, 5)])).unwrap();
    assert!(sums.book(7, Dates([1, 5, 4, 8])).is_ok());
}
