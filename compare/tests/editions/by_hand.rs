//! Document 01's cases under both editions, and others worked out by hand.

use oracle::editions::calls::Calls;
use oracle::editions::reading::Reading;
use oracle::editions::terms::{FIRST, Field, Manager, Opening, SECOND};
use oracle::frames::{Dates, RatedOpening};
use oracle::stated::{contact_a, request, spans_of};

use super::{listed, opening_a, opening_of, rated_a};

fn opened(manager: Manager, opening: Opening) -> Reading {
    let mut reading = Reading::of(manager);
    assert_eq!(reading.open(&opening), Ok(()));
    reading
}

fn free_a(edition: u64) -> Reading {
    opened(Manager::Free, opening_a(edition))
}

fn priority_a(edition: u64) -> Reading {
    opened(Manager::Priority, opening_a(edition))
}

/// The send dates of a dry run at priority 0.
fn send(reading: &mut Reading, time: i64, size: i64) -> Result<(i64, i64), u8> {
    let Dates([start, end, ..]) = reading.dry_run(request(time, size, 0))?;
    Ok((start, end))
}

fn book_at(reading: &mut Reading, time: i64, size: i64, priority: u8) {
    let request = request(time, size, priority);
    let dates = reading.dry_run(request).expect("an offer");
    assert_eq!(reading.book(request, dates), Ok(()));
}

fn book(reading: &mut Reading, time: i64, size: i64) {
    book_at(reading, time, size, 0);
}

fn list(reading: &mut Reading) -> Vec<(i64, i64, i64)> {
    listed(&reading.list().expect("a list"))
}

#[test]
fn case_1_a_booking_inside() {
    let mut first = free_a(FIRST);
    assert_eq!(first.dry_run(request(3, 15, 0)), Ok(Dates([3, 4, 6, 7])));
    book(&mut first, 3, 15);
    assert_eq!(list(&mut first), [(0, 3, 30), (4, 10, 60)]);
    assert_eq!(first.room(), Ok(90));

    let mut second = free_a(SECOND);
    assert_eq!(second.dry_run(request(3, 15, 0)), Ok(Dates([3, 5, 6, 8])));
    book(&mut second, 3, 15);
    assert_eq!(list(&mut second), [(0, 3, 30), (5, 10, 50)]);
    assert_eq!(second.room(), Ok(80));
}

/// At a segment's start edition 2 lists what remains, and not 85.
#[test]
fn case_2_a_booking_at_the_start() {
    let mut first = free_a(FIRST);
    book(&mut first, 0, 15);
    assert_eq!(list(&mut first), [(1, 10, 85)]);

    let mut second = free_a(SECOND);
    assert_eq!(send(&mut second, 0, 15), Ok((0, 2)));
    book(&mut second, 0, 15);
    assert_eq!(list(&mut second), [(2, 10, 80)]);
    assert_eq!(second.room(), Ok(80));
    assert_eq!(send(&mut second, 0, 80), Ok((2, 10)));
    assert_eq!(send(&mut second, 0, 81), Err(7));
}

/// A bundle smaller than a tick takes the tick.
#[test]
fn case_3_no_send_without_length() {
    let mut first = free_a(FIRST);
    assert_eq!(send(&mut first, 5, 9), Ok((5, 5)));
    book(&mut first, 5, 9);
    assert_eq!(list(&mut first), [(0, 5, 50)]);

    let mut second = free_a(SECOND);
    assert_eq!(send(&mut second, 5, 9), Ok((5, 6)));
    assert_eq!(send(&mut second, 5, 1), Ok((5, 6)));
    book(&mut second, 5, 9);
    assert_eq!(list(&mut second), [(0, 5, 50), (6, 10, 40)]);
}

#[test]
fn case_4_all_and_one_more() {
    for edition in [FIRST, SECOND] {
        let mut reading = free_a(edition);
        assert_eq!(send(&mut reading, 0, 101), Err(7));
        assert_eq!(send(&mut reading, 0, 100), Ok((0, 10)));
        book(&mut reading, 0, 100);
        assert_eq!(list(&mut reading), [(10, 10, 0)]);
        assert_eq!(reading.room(), Ok(0));
    }
}

/// The request's own case: 29 units are no longer put into two ticks of ten.
#[test]
fn case_5_u_must_not_be_after_the_deadline() {
    let mut first = free_a(FIRST);
    book(&mut first, 5, 50);
    assert_eq!(list(&mut first), [(0, 5, 50), (10, 10, 0)]);
    assert_eq!(send(&mut first, 3, 29), Ok((3, 5)));
    assert_eq!(send(&mut first, 3, 30), Err(7));

    let mut second = free_a(SECOND);
    book(&mut second, 5, 50);
    assert_eq!(list(&mut second), [(0, 5, 50), (10, 10, 0)]);
    assert_eq!(send(&mut second, 3, 29), Err(7));
    assert_eq!(send(&mut second, 3, 21), Err(7));
    assert_eq!(send(&mut second, 3, 20), Ok((3, 5)));
    assert_eq!(send(&mut second, 3, 19), Ok((3, 5)));
    assert_eq!(send(&mut second, 3, 10), Ok((3, 4)));
}

#[test]
fn case_6_over_two_rates() {
    let rates = [(0, 4, 2), (4, 10, 5)];
    let mut first = opened(Manager::Free, rated_a(FIRST, rates));
    let mut second = opened(Manager::Free, rated_a(SECOND, rates));
    for (size, rounded, u) in [(6, 4, 4), (7, 4, 5), (11, 5, 5), (12, 5, 6), (14, 5, 6)] {
        assert_eq!(send(&mut first, 1, size), Ok((1, rounded)));
        assert_eq!(send(&mut second, 1, size), Ok((1, u)));
    }
}

/// The end's delay is that of u.
#[test]
fn case_7_delays() {
    let contact = RatedOpening {
        delays: spans_of([(0, 4, 10), (4, 10, 2)]),
        ..contact_a()
    };
    for (edition, dates) in [(FIRST, [3, 4, 13, 14]), (SECOND, [3, 5, 13, 7])] {
        let contact = contact.clone();
        let mut reading = opened(Manager::Free, opening_of(edition, contact));
        assert_eq!(reading.dry_run(request(4, 10, 0)), Ok(Dates([4, 5, 14, 7])));
        assert_eq!(reading.dry_run(request(3, 19, 0)), Ok(Dates(dates)));
    }
}

#[test]
fn case_8_priorities() {
    for edition in [FIRST, SECOND] {
        let mut reading = priority_a(edition);
        book_at(&mut reading, 2, 30, 1);
        assert_eq!(list(&mut reading), [(0, 2, -1), (2, 5, 1), (5, 10, -1)]);
        assert_eq!(reading.dry_run(request(0, 30, 1)), Ok(Dates([5, 8, 8, 11])));
        book_at(&mut reading, 0, 30, 2);
        assert_eq!(
            list(&mut reading),
            [(0, 2, 2), (2, 3, 2), (3, 5, 1), (5, 10, -1)]
        );
    }
}

/// Two free ticks carry 20: edition 1 puts 29 into them.
#[test]
fn a_run_reaches_u() {
    let mut first = priority_a(FIRST);
    book_at(&mut first, 2, 30, 1);
    assert_eq!(send_at(&mut first, 0, 29, 1), Ok((0, 2)));

    let mut second = priority_a(SECOND);
    book_at(&mut second, 2, 30, 1);
    assert_eq!(send_at(&mut second, 0, 20, 1), Ok((0, 2)));
    assert_eq!(send_at(&mut second, 0, 21, 1), Ok((5, 8)));
    assert_eq!(send_at(&mut second, 0, 50, 1), Ok((5, 10)));
    assert_eq!(send_at(&mut second, 0, 51, 1), Err(7));
    assert_eq!(send_at(&mut second, 0, 91, 2), Ok((0, 10)));
}

fn send_at(reading: &mut Reading, time: i64, size: i64, priority: u8) -> Result<(i64, i64), u8> {
    let Dates([start, end, ..]) = reading.dry_run(request(time, size, priority))?;
    Ok((start, end))
}

/// Under edition 2 no empty segment comes to be, and so none is in the way.
#[test]
fn case_9_a_small_bundle() {
    let mut first = priority_a(FIRST);
    book_at(&mut first, 5, 9, 0);
    assert_eq!(list(&mut first), [(0, 5, -1), (5, 5, 0), (5, 10, -1)]);
    assert_eq!(send(&mut first, 0, 100), Err(7));

    let mut second = priority_a(SECOND);
    book_at(&mut second, 5, 9, 0);
    assert_eq!(list(&mut second), [(0, 5, -1), (5, 6, 0), (6, 10, -1)]);
    assert_eq!(send(&mut second, 0, 50), Ok((0, 5)));
    assert_eq!(send(&mut second, 0, 51), Err(7));
}

/// Ticks that carry nothing: u is the first tick by which the size has left,
/// and none follows it, nor is one before the start left out.
#[test]
fn ticks_that_carry_nothing() {
    let rates = [(0, 2, 0), (2, 3, 3), (3, 10, 0)];
    let mut second = opened(Manager::Free, rated_a(SECOND, rates));
    assert_eq!(send(&mut second, 0, 1), Ok((0, 3)));
    assert_eq!(send(&mut second, 0, 3), Ok((0, 3)));
    assert_eq!(send(&mut second, 3, 1), Err(7));
    book(&mut second, 1, 2);
    assert_eq!(list(&mut second), [(0, 1, 0), (3, 10, 0)]);

    let mut first = opened(Manager::Free, rated_a(FIRST, rates));
    assert_eq!(send(&mut first, 0, 1), Ok((0, 2)));
    book(&mut first, 1, 2);
    assert_eq!(list(&mut first), [(0, 1, 0), (2, 10, 3)]);
}

/// A segment that ends at the asked time is not skipped. Edition 1 offers its
/// end, a tick that is booked, for no time at all; edition 2 would need the tick.
#[test]
fn a_segment_that_ends_at_the_asked_time() {
    for (edition, sent) in [(FIRST, Ok((5, 5))), (SECOND, Err(7))] {
        let mut reading = free_a(edition);
        book(&mut reading, 5, 50);
        assert_eq!(send(&mut reading, 5, 9), sent);
    }
}

/// A later segment takes what the first has not the time for.
#[test]
fn the_next_segment_is_offered() {
    let mut second = free_a(SECOND);
    book(&mut second, 4, 15);
    assert_eq!(list(&mut second), [(0, 4, 40), (6, 10, 40)]);
    assert_eq!(send(&mut second, 3, 10), Ok((3, 4)));
    assert_eq!(send(&mut second, 3, 11), Ok((6, 8)));
    assert_eq!(send(&mut second, 4, 1), Ok((6, 7)));
    assert_eq!(send(&mut second, 5, 40), Ok((6, 10)));
    assert_eq!(send(&mut second, 7, 31), Err(7));
}

// ---------------------------------------------------------------------------
// Refusals

#[test]
fn an_edition_that_is_none_is_2_before_all_else() {
    let mut backward = contact_a();
    backward.window.end = backward.window.start;
    for manager in [Manager::Free, Manager::Priority] {
        let mut reading = Reading::of(manager);
        for edition in [0, 3, 255, 257, u64::MAX] {
            let contact = backward.clone();
            assert_eq!(reading.open(&opening_a(edition)), Err(2));
            assert_eq!(reading.open(&opening_of(edition, contact)), Err(2));
        }
        for edition in [FIRST, SECOND] {
            let contact = backward.clone();
            assert_eq!(reading.open(&opening_of(edition, contact)), Err(3));
        }
        assert_eq!(reading.list(), Err(1));
    }
}

/// One thing wrong, and then also what is tested after it.
#[test]
fn the_other_refusals_keep_their_order() {
    for edition in [FIRST, SECOND] {
        let mut contact = contact_a();
        contact.delays[0].value = -1;
        let refused = |contact: &RatedOpening| {
            let contact = contact.clone();
            Reading::of(Manager::Free).open(&opening_of(edition, contact))
        };
        assert_eq!(refused(&contact), Err(5));
        contact.rates[0].value = (1 << 38) + 1;
        assert_eq!(refused(&contact), Err(6));
        contact.rates[0].end = 9;
        assert_eq!(refused(&contact), Err(4));
        contact.window.end = (1 << 24) + 1;
        assert_eq!(refused(&contact), Err(3));
    }
}

#[test]
fn a_record_whose_edition_is_none_is_1() {
    let mut reading = free_a(SECOND);
    let asked = request(3, 15, 0);
    let dates = reading.dry_run(asked).expect("an offer");
    assert_eq!(reading.write(Field::Edition(3)), Err(1));
    assert_eq!(reading.dry_run(asked), Err(1));
    assert_eq!(reading.dry_run(request(3, 0, 0)), Err(1));
    assert_eq!(reading.book(asked, dates), Err(1));
    assert_eq!(reading.list(), Err(1));
    assert_eq!(reading.room(), Err(1));
    assert_eq!(reading.write(Field::Edition(SECOND)), Ok(()));
    assert_eq!(reading.book(asked, dates), Ok(()));
    assert_eq!(list(&mut reading), [(0, 3, 30), (5, 10, 50)]);
}

/// The list stays, and the other edition goes on with it.
#[test]
fn a_record_of_the_other_edition() {
    let mut reading = free_a(FIRST);
    book(&mut reading, 0, 15);
    assert_eq!(reading.write(Field::Edition(SECOND)), Ok(()));
    assert_eq!(list(&mut reading), [(1, 10, 85)]);
    assert_eq!(send(&mut reading, 0, 85), Ok((1, 10)));
    assert_eq!(send(&mut reading, 0, 86), Err(7));
    // What remains carries 80; 85 less the size would be 75.
    book(&mut reading, 0, 10);
    assert_eq!(list(&mut reading), [(2, 10, 80)]);
}

#[test]
fn bookings_are_refused_in_order() {
    let mut reading = free_a(SECOND);
    let asked = request(3, 15, 0);
    for dates in [[3, 4, 6, 7], [3, 6, 6, 9], [3, 5, 6, 7], [0; 4]] {
        assert_eq!(reading.book(asked, Dates(dates)), Err(9));
        assert_eq!(reading.book(request(3, 0, 0), Dates(dates)), Err(2));
    }
    assert_eq!(list(&mut reading), [(0, 10, 100)]);
}

/// The 64th segment is kept and a 65th is 10, under edition 2 too.
#[test]
fn a_65th_segment_is_10() {
    let contact = RatedOpening {
        window: oracle::frames::Window { start: 0, end: 200 },
        rates: spans_of([(0, 200, 10)]),
        delays: spans_of([(0, 200, 0)]),
    };
    let mut reading = opened(Manager::Free, opening_of(SECOND, contact));
    for time in 1..64 {
        book(&mut reading, 2 * time, 7);
    }
    assert_eq!(list(&mut reading).len(), 64);
    let asked = request(150, 7, 0);
    assert_eq!(reading.book(asked, Dates([150, 151, 150, 151])), Err(10));
    // At a segment's start the list does not get longer.
    book(&mut reading, 127, 7);
    assert_eq!(list(&mut reading).len(), 64);
}
