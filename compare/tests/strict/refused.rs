//! Flags that are none: 2 at an opening before all else, 1 in a record; and flags
//! written into records.

use oracle::frames::{Dates, Request};
use oracle::stated::{load, request};
use oracle::strict::calls::Calls;
use oracle::strict::flag::{OFF, ON};
use oracle::strict::terms::{Call, Field, Manager, Opening};
use oracle::trial::answers::Said;

use super::{book, contact, list, opening_a, shown};

const NONE: [u64; 9] = [
    2,
    3,
    255,
    256,
    257,
    1 << 32,
    (1 << 32) + 1,
    1 << 63,
    u64::MAX,
];

/// The same over a window that is none.
fn backward(manager: Manager, strict: u64) -> Opening {
    let mut opening = opening_a(manager, strict);
    let window = match &mut opening {
        Opening::Rated(opening) => &mut opening.contact.window,
        Opening::Poly(opening) => &mut opening.contact.window,
        Opening::Queue(opening) => &mut opening.contact.window,
    };
    window.end = window.start;
    opening
}

#[test]
fn a_flag_that_is_none_is_2_before_all_else() {
    for manager in Manager::ALL {
        let mut reading = contact(manager, ON);
        let mut open = |opening| reading.ask(&Call::Open(opening)).number();
        for strict in NONE {
            assert_eq!(open(opening_a(manager, strict)), 2, "{manager} {strict}");
            assert_eq!(open(backward(manager, strict)), 2, "{manager} {strict}");
        }
        for strict in [OFF, ON] {
            assert_eq!(open(backward(manager, strict)), 3, "{manager} {strict}");
        }
        // What was open is kept, with its flag.
        assert_eq!(reading.chosen().strict, ON);
        assert_eq!(reading.ask(&Call::List).number(), 0);
    }
}

/// All calls of a manager, in and outside the limits.
fn calls(manager: Manager, asked: Request, dates: Dates) -> Vec<Call> {
    let outside = Request {
        time: -1,
        load: load(0, 255),
    };
    let mut calls = vec![
        Call::DryRun(asked),
        Call::DryRun(outside),
        Call::Book(asked, dates),
        Call::Book(outside, dates),
        Call::List,
    ];
    match manager {
        Manager::Free => calls.push(Call::Room),
        Manager::Queue => {
            calls.push(Call::Enqueue(asked.load));
            calls.push(Call::Dequeue(outside.load));
        }
        _ => {}
    }
    calls
}

#[test]
fn a_flag_that_is_none_in_a_record_is_1() {
    let asked = request(3, 15, 0);
    for manager in Manager::ALL {
        for strict in NONE {
            let mut reading = contact(manager, ON);
            let dates = Dates(shown(&mut reading, asked).expect("an offer"));
            let write = |strict| Call::Write(Field::flag(manager, strict));
            assert_eq!(reading.ask(&write(strict)), Said::Number(1));
            for call in calls(manager, asked, dates) {
                assert_eq!(reading.ask(&call), Said::Number(1), "{manager} {call}");
            }
            assert_eq!(reading.ask(&write(ON)), Said::Number(0));
            assert_eq!(reading.ask(&Call::Book(asked, dates)), Said::Number(0));
        }
    }
}

/// The other flag in a record is taken, and decides from then on.
#[test]
fn the_other_flag_in_a_record() {
    for manager in [Manager::Free, Manager::Priority, Manager::Queue] {
        let mut reading = contact(manager, OFF);
        let write = |strict| Call::Write(Field::flag(manager, strict));
        assert_eq!(reading.ask(&write(ON)), Said::Number(0));
        assert_eq!(book(&mut reading, 5, 9, 0), 17);
        assert_eq!(reading.ask(&write(OFF)), Said::Number(0));
        assert_eq!(book(&mut reading, 5, 9, 0), 0);
    }
}

/// A record that lists an empty segment and is strict from then on: every call but
/// the booking answers as with the flag off.
#[test]
fn a_strict_record_with_an_empty_segment() {
    let mut reading = contact(Manager::Priority, OFF);
    assert_eq!(book(&mut reading, 5, 9, 0), 0);
    let strict = Call::Write(Field::flag(Manager::Priority, ON));
    assert_eq!(reading.ask(&strict), Said::Number(0));
    assert_eq!(list(&mut reading), [(0, 5, -1), (5, 5, 0), (5, 10, -1)]);
    assert_eq!(shown(&mut reading, request(0, 100, 0)), Err(7));
    assert_eq!(shown(&mut reading, request(0, 100, 1)), Ok([0, 10, 3, 13]));
    // "empty segments strictly inside are set too"
    assert_eq!(book(&mut reading, 0, 100, 1), 0);
    assert_eq!(list(&mut reading), [(0, 5, 1), (5, 5, 1), (5, 10, 1)]);
}

/// No call changes the flag.
#[test]
fn the_flag_stays() {
    for manager in [Manager::Free, Manager::Priority, Manager::Queue] {
        let mut strict = contact(manager, ON);
        for size in [9, 10, 9, 20, 9] {
            let number = if size < 10 { 17 } else { 0 };
            assert_eq!(book(&mut strict, 0, size, 0), number, "{manager}");
            assert_eq!(strict.chosen().strict, ON);
        }
    }
}
