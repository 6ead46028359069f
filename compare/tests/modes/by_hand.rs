//! Document 01's case 10 in both modes, and others worked out by hand.

use oracle::frames::{Dates, Window};
use oracle::modes::calls::Calls;
use oracle::modes::reading::Reading;
use oracle::modes::terms::{EXACT, PORTED};
use oracle::stated::{request, spans_of, two_to};

use super::{opened, opening_a};

/// Over [0,10), offset 0.
fn over_a(mode: u64, coefficients: [i64; 4]) -> Reading {
    opened(&opening_a(mode, coefficients))
}

fn send(reading: &mut Reading, time: i64, size: i64) -> Result<(i64, i64), u8> {
    let Dates([start, end, ..]) = reading.dry_run(request(time, size, 0))?;
    Ok((start, end))
}

fn book(reading: &mut Reading, time: i64, size: i64) {
    let request = request(time, size, 0);
    let dates = reading.dry_run(request).expect("an offer");
    assert_eq!(reading.book(request, dates), Ok(()));
}

#[test]
fn case_10_constant() {
    for mode in [PORTED, EXACT] {
        let mut reading = over_a(mode, [10, 0, 0, 0]);
        for size in [15, 20] {
            let offered = reading.dry_run(request(3, size, 0));
            assert_eq!(offered, Ok(Dates([3, 5, 6, 8])));
        }
        assert_eq!(send(&mut reading, 3, 21), Ok((3, 6)));
        assert_eq!(send(&mut reading, 0, 100), Ok((0, 10)));
        assert_eq!(send(&mut reading, 0, 101), Err(7));
    }
}

/// "Case 10's last line, asked at 0, then gives send 0,2."
#[test]
fn case_10_slope_1() {
    let mut ported = over_a(PORTED, [0, 1, 0, 0]);
    assert_eq!(send(&mut ported, 0, 1), Err(7));
    let mut exact = over_a(EXACT, [0, 1, 0, 0]);
    assert_eq!(send(&mut exact, 0, 1), Ok((0, 2)));
    // Two ticks carry exactly 2, three 4 1/2, all of them 50.
    for (size, end) in [(2, 2), (3, 3), (4, 3), (5, 4), (8, 4), (49, 10), (50, 10)] {
        assert_eq!(send(&mut exact, 0, size), Ok((0, end)), "{size}");
    }
    assert_eq!(send(&mut exact, 0, 51), Err(7));
    // The fourth tick carries 3 1/2.
    assert_eq!(send(&mut exact, 3, 3), Ok((3, 4)));
    assert_eq!(send(&mut exact, 3, 4), Ok((3, 5)));
}

/// d^3 / 3 is 1/3, 8/3, 9; d^4 / 4 is 1/4, 4, 81/4.
#[test]
fn thirds_and_quarters() {
    let mut thirds = over_a(EXACT, [0, 0, 1, 0]);
    for (size, end) in [(1, 2), (2, 2), (3, 3), (9, 3), (10, 4)] {
        assert_eq!(send(&mut thirds, 0, size), Ok((0, end)), "{size}");
    }
    let mut quarters = over_a(EXACT, [0, 0, 0, 1]);
    for (size, end) in [(1, 2), (4, 2), (5, 3), (20, 3), (21, 4)] {
        assert_eq!(send(&mut quarters, 0, size), Ok((0, end)), "{size}");
    }
    for coefficients in [[0, 0, 2, 0], [0, 0, 0, 3]] {
        let mut ported = over_a(PORTED, coefficients);
        assert_eq!(send(&mut ported, 0, 1), Err(7));
    }
}

/// 1/2 and 1/3 and 1/4 of a unit: 13 twelfths after a tick.
#[test]
fn parts_of_units_add_up() {
    let mut exact = over_a(EXACT, [0, 1, 1, 1]);
    assert_eq!(send(&mut exact, 0, 1), Ok((0, 1)));
    assert_eq!(send(&mut exact, 0, 2), Ok((0, 2)));
}

/// -3/2 is -1 in mode 1 and itself in mode 2.
#[test]
fn negative_quotients() {
    let coefficients = [10, -3, 0, 0];
    let mut ported = over_a(PORTED, coefficients);
    let mut exact = over_a(EXACT, coefficients);
    for reading in [&mut ported, &mut exact] {
        // [0,10) carries nothing by its end.
        assert_eq!(send(reading, 0, 1), Err(7));
    }
    let six = |mode| {
        let mut opening = opening_a(mode, coefficients);
        opening.contact.window.end = 6;
        opened(&opening)
    };
    // 10 d - d^2 is 24 at 6, 9 at 1, 16 at 2.
    assert_eq!(send(&mut six(PORTED), 0, 10), Ok((0, 2)));
    // 10 d - 3/2 d^2 is 6 at 6, 17/2 at 1, 33/2 at 3.
    assert_eq!(send(&mut six(EXACT), 0, 6), Ok((0, 1)));
    assert_eq!(send(&mut six(EXACT), 0, 7), Err(7));
}

/// 20 d - 8 d^2 + 2/3 d^3 is 40/3 at 2, below zero at 5 and at 8, 18 at 9: "the
/// search keeps its steps", and does not see that 2 has enough.
#[test]
fn the_search_keeps_its_steps() {
    let mut exact = over_a(EXACT, [20, -16, 2, 0]);
    for size in [13, 18] {
        assert_eq!(send(&mut exact, 0, size), Ok((0, 9)));
    }
    assert_eq!(send(&mut exact, 0, 66), Ok((0, 10)));
    assert_eq!(send(&mut exact, 0, 67), Err(7));
}

/// Before the offset the distance is negative, and the rate falls to zero.
#[test]
fn an_offset_after_the_window() {
    let mut opening = opening_a(EXACT, [0, -1, 0, 0]);
    opening.contact.offset = 10;
    let mut exact = opened(&opening);
    // 50 in all, 19/2 in the first tick, 1/2 in the last.
    assert_eq!(send(&mut exact, 0, 9), Ok((0, 1)));
    assert_eq!(send(&mut exact, 0, 10), Ok((0, 2)));
    assert_eq!(send(&mut exact, 8, 2), Ok((8, 10)));
    assert_eq!(send(&mut exact, 9, 1), Err(7));
}

/// The end search asks each free segment's own end.
#[test]
fn bookings_cut_the_list() {
    let mut exact = over_a(EXACT, [0, 1, 0, 0]);
    book(&mut exact, 3, 4);
    assert_eq!(exact.list(), Ok(spans_of([(0, 3, 0), (5, 10, 0)])));
    assert_eq!(send(&mut exact, 0, 4), Ok((0, 3)));
    // 4 1/2 before the booking, 37 1/2 after it.
    assert_eq!(send(&mut exact, 0, 5), Ok((5, 6)));
    assert_eq!(send(&mut exact, 0, 37), Ok((5, 10)));
    assert_eq!(send(&mut exact, 0, 38), Err(7));
    book(&mut exact, 0, 4);
    assert_eq!(exact.list(), Ok(spans_of([(3, 3, 0), (5, 10, 0)])));
    book(&mut exact, 7, 25);
    assert_eq!(
        exact.list(),
        Ok(spans_of([(3, 3, 0), (5, 7, 0), (10, 10, 0)]))
    );
}

/// The longest window up to the last date: d^2 / 2 reaches 2^38 after 741,455.2
/// ticks, and is 2^47 at last.
#[test]
fn the_longest_window() {
    let mut opening = opening_a(EXACT, [0, 1, 0, 0]);
    let (start, end) = (two_to(40) - two_to(24), two_to(40));
    opening.contact.window = Window { start, end };
    opening.contact.offset = start;
    opening.contact.delays = spans_of([(0, end, 0)]);
    let mut exact = opened(&opening);
    assert_eq!(
        send(&mut exact, 0, two_to(38)),
        Ok((start, start + 741_456))
    );
    assert_eq!(send(&mut exact, end - 1, two_to(24)), Err(7));
    assert_eq!(
        send(&mut exact, end - 1, two_to(24) - 1),
        Ok((end - 1, end))
    );
}

/// The other mode goes on with the list.
#[test]
fn a_record_of_the_other_mode() {
    use oracle::modes::terms::Field;
    let mut reading = over_a(EXACT, [1, 1, 0, 0]);
    book(&mut reading, 0, 4);
    assert_eq!(reading.list(), Ok(spans_of([(2, 10, 0)])));
    assert_eq!(reading.write(Field::Mode(PORTED)), Ok(()));
    // Eight ticks of 1.
    assert_eq!(send(&mut reading, 0, 8), Ok((2, 10)));
    assert_eq!(send(&mut reading, 0, 9), Err(7));
    assert_eq!(reading.write(Field::Mode(EXACT)), Ok(()));
    assert_eq!(send(&mut reading, 0, 9), Ok((2, 5)));
}
