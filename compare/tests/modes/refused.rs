//! Refusals: a mode that is none, the order, and the range rule's limit.

use oracle::frames::{Dates, Window};
use oracle::modes::calls::Calls;
use oracle::modes::reading::Reading;
use oracle::modes::terms::{EXACT, Field, Opening, PORTED};
use oracle::stated::{request, spans_of, two_to};

use super::{one_tick, opened, opening_a};

fn refused(opening: &Opening) -> Result<(), u8> {
    Reading::default().open(opening)
}

#[test]
fn a_mode_that_is_none_is_2_before_all_else() {
    let backward = |mode| {
        let mut opening = opening_a(mode, [10, 0, 0, 0]);
        opening.contact.window.end = opening.contact.window.start;
        opening
    };
    for mode in [0, 3, 255, 257, u64::MAX] {
        assert_eq!(refused(&backward(mode)), Err(2));
        assert_eq!(refused(&opening_a(mode, [10, 0, 0, 0])), Err(2));
    }
    for mode in [PORTED, EXACT] {
        assert_eq!(refused(&backward(mode)), Err(3));
    }
}

/// One thing wrong, and then also what is tested before it.
#[test]
fn the_other_refusals_keep_their_order() {
    for mode in [PORTED, EXACT] {
        let mut opening = opening_a(mode, [two_to(61), 0, 0, 0]);
        assert_eq!(refused(&opening), Err(11));
        opening.contact.delays[0].value = -1;
        assert_eq!(refused(&opening), Err(5));
        opening.contact.window.end = two_to(24) + 1;
        assert_eq!(refused(&opening), Err(3));
        opening.mode = 3;
        assert_eq!(refused(&opening), Err(2));
    }
}

/// Over one tick the twelvefold steps are sums of 12, 6, 4 and 3 times the
/// coefficients: 2^61 opens, one more is 11.
#[test]
fn the_twelvefold_limit() {
    let fourth = two_to(59);
    for (coefficients, answer) in [
        ([0, 0, fourth, 0], Ok(())),
        ([0, 0, -fourth, 0], Ok(())),
        ([0, 0, fourth - 1, 1], Ok(())),
        ([0, 0, fourth - 3, 4], Ok(())),
        ([0, 0, fourth - 3, -4], Ok(())),
        ([0, -1, 3 - fourth, 2], Ok(())),
        ([0, 0, fourth - 2, 3], Err(11)),
        ([0, 0, fourth - 2, -3], Err(11)),
        ([0, 0, fourth, 1], Err(11)),
        ([0, 0, fourth + 1, 0], Err(11)),
        ([192_153_584_101_141_162, 0, 0, 0], Ok(())),
        ([192_153_584_101_141_163, 0, 0, 0], Err(11)),
        ([0, 384_307_168_202_282_325, 0, 0], Ok(())),
        ([0, 384_307_168_202_282_326, 0, 0], Err(11)),
        ([0, 0, 0, 768_614_336_404_564_650], Ok(())),
        ([0, 0, 0, 768_614_336_404_564_651], Err(11)),
    ] {
        assert_eq!(
            refused(&one_tick(EXACT, coefficients)),
            answer,
            "{coefficients:?}"
        );
        assert_eq!(refused(&one_tick(PORTED, coefficients)), Ok(()));
    }
    assert_eq!(refused(&one_tick(PORTED, [two_to(61), 1, 2, 3])), Ok(()));
    assert_eq!(refused(&one_tick(PORTED, [two_to(61), 2, 0, 0])), Err(11));
}

/// 6 d^2 passes 2^61 after d = 619,925,131: in mode 1 the line is nothing, as
/// far from its offset as there are dates.
#[test]
fn a_line_far_from_its_offset() {
    let last = 619_925_131;
    for (end, answer) in [(last, Ok(())), (last + 1, Err(11))] {
        let mut opening = opening_a(EXACT, [0, 1, 0, 0]);
        let start = end - 10;
        opening.contact.window = Window { start, end };
        assert_eq!(refused(&opening), answer);
        opening.contact.window = Window { start: 0, end: 10 };
        opening.contact.offset = end;
        assert_eq!(refused(&opening), answer);
        opening.mode = PORTED;
        opening.contact.offset = two_to(40);
        assert_eq!(refused(&opening), Ok(()));
    }
}

/// Whatever the numbers are, there is an answer.
#[test]
fn numbers_of_any_size() {
    let edges = [
        i64::MIN,
        -two_to(61) - 1,
        -1,
        0,
        1,
        two_to(61) + 1,
        i64::MAX,
    ];
    for mode in [PORTED, EXACT] {
        for number in edges {
            for offset in edges {
                let mut opening = opening_a(mode, [number; 4]);
                opening.contact.offset = offset;
                let small = (-1..=1).contains(&number) && (0..=1).contains(&offset);
                assert_eq!(refused(&opening), if small { Ok(()) } else { Err(11) });
                let (start, end) = (number, offset);
                opening.contact.window = Window { start, end };
                let fits = (0..=1).contains(&start) && end == 1 && start < end;
                assert_eq!(refused(&opening) == Err(3), !fits, "{start} {end}");
            }
        }
    }
}

/// No segment will do, sixteen too.
#[test]
fn delays_need_not_cover() {
    for mode in [PORTED, EXACT] {
        let mut opening = opening_a(mode, [10, 0, 0, 0]);
        opening.contact.delays.clear();
        let mut reading = opened(&opening);
        assert_eq!(reading.dry_run(request(3, 15, 0)), Err(8));
        assert_eq!(reading.book(request(3, 15, 0), Dates([3, 5, 3, 5])), Err(9));
        // Found for the start alone.
        opening.contact.delays = spans_of([(0, 4, 9)]);
        assert_eq!(opened(&opening).dry_run(request(3, 15, 0)), Err(8));
        // The end's lookup goes on from the start's.
        opening.contact.delays = spans_of([(0, 2, 7), (9, 4, 9), (0, 2, 5), (0, 8, 1)]);
        let offered = opened(&opening).dry_run(request(3, 15, 0));
        assert_eq!(offered, Ok(Dates([3, 5, 12, 6])));
        opening.contact.delays = vec![opening.contact.delays[0]; 16];
        assert_eq!(refused(&opening), Ok(()));
        opening.contact.delays = vec![opening.contact.delays[0]; 17];
        assert_eq!(refused(&opening), Err(5));
    }
}

#[test]
fn a_record_whose_mode_is_none_is_1() {
    let mut reading = opened(&opening_a(EXACT, [0, 1, 0, 0]));
    let asked = request(0, 1, 0);
    let dates = reading.dry_run(asked).expect("an offer");
    for mode in [0, 3, 255, u64::MAX] {
        assert_eq!(reading.write(Field::Mode(mode)), Err(1));
        assert_eq!(reading.dry_run(asked), Err(1));
        assert_eq!(reading.dry_run(request(0, 0, 0)), Err(1));
        assert_eq!(reading.book(asked, dates), Err(1));
        assert_eq!(reading.list(), Err(1));
    }
    assert_eq!(reading.write(Field::Mode(EXACT)), Ok(()));
    assert_eq!(reading.book(asked, dates), Ok(()));
    assert_eq!(reading.list(), Ok(spans_of([(2, 10, 0)])));
}

/// "all that the opening tests holds", in the mode that the record names.
#[test]
fn a_record_outside_its_modes_range_is_1() {
    let mut reading = opened(&one_tick(PORTED, [two_to(61), 0, 0, 0]));
    assert_eq!(reading.write(Field::Mode(EXACT)), Err(1));
    assert_eq!(reading.list(), Err(1));
    assert_eq!(reading.write(Field::Mode(PORTED)), Ok(()));
    let mut reading = opened(&one_tick(EXACT, [0, 0, two_to(59), 0]));
    assert_eq!(reading.write(Field::Coefficient(3, 1)), Err(1));
    assert_eq!(reading.write(Field::Coefficient(3, 0)), Ok(()));
    assert_eq!(reading.write(Field::Offset(-1)), Err(1));
    assert_eq!(reading.write(Field::Offset(1)), Ok(()));
}

#[test]
fn bookings_are_refused_in_order() {
    let mut reading = opened(&opening_a(EXACT, [0, 1, 0, 0]));
    let asked = request(0, 1, 0);
    for dates in [[0, 1, 3, 4], [0, 3, 3, 6], [0, 2, 3, 4], [0; 4]] {
        assert_eq!(reading.book(asked, Dates(dates)), Err(9));
        assert_eq!(reading.book(request(0, 0, 0), Dates(dates)), Err(2));
    }
    assert_eq!(reading.list(), Ok(spans_of([(0, 10, 0)])));
}

/// The 64th segment is kept and a 65th is 10.
#[test]
fn a_65th_segment_is_10() {
    let mut opening = opening_a(EXACT, [1, 1, 0, 0]);
    opening.contact.window.end = 200;
    opening.contact.delays = spans_of([(0, 200, 0)]);
    let mut reading = opened(&opening);
    // A tick carries its number and 3/2.
    for time in 1..64 {
        let start = 2 * time;
        let dates = Dates([start, start + 1, start, start + 1]);
        assert_eq!(reading.book(request(start, start, 0), dates), Ok(()));
    }
    assert_eq!(reading.list().map(|list| list.len()), Ok(64));
    let dates = Dates([150, 151, 150, 151]);
    assert_eq!(reading.book(request(150, 150, 0), dates), Err(10));
    // At a segment's start the list does not get longer.
    let dates = Dates([127, 128, 127, 128]);
    assert_eq!(reading.book(request(127, 128, 0), dates), Ok(()));
    assert_eq!(reading.list().map(|list| list.len()), Ok(64));
}
