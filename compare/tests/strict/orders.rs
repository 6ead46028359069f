//! 17 stands after 1, 2 and 9, and before 10 and 13.

use oracle::editions::terms::Opening as Rated;
use oracle::frames::Window;
use oracle::stated::{self, request, two_to};
use oracle::strict::calls::Calls;
use oracle::strict::flag::{OFF, ON};
use oracle::strict::queues::terms::Field as QueueField;
use oracle::strict::reading::Reading;
use oracle::strict::terms::{Call, Field, Manager, Opening};

use super::{book, contact, list, opened, plain, shown, stated};

/// The managers that have offers of zero length.
const WITH_EMPTY: [Manager; 3] = [Manager::Free, Manager::Priority, Manager::Queue];

#[test]
fn after_2() {
    for manager in WITH_EMPTY {
        let mut strict = contact(manager, ON);
        let dates = shown(&mut strict, request(5, 9, 0)).expect("an offer");
        assert_eq!(dates[0], dates[1]);
        for asked in [
            request(-1, 9, 0),
            request(two_to(40) + 1, 9, 0),
            request(5, 0, 0),
            request(5, two_to(38) + 1, 0),
            request(5, 9, 128),
        ] {
            assert_eq!(stated(&mut strict, asked, dates), 2, "{manager} {asked:?}");
        }
        assert_eq!(stated(&mut strict, request(5, 9, 0), dates), 17);
    }
}

/// Equal dates that are not what a dry run at the stated time shows.
#[test]
fn after_9() {
    for manager in WITH_EMPTY {
        let mut strict = contact(manager, ON);
        let small = request(5, 9, 0);
        for dates in [
            [6, 6, 9, 9],
            [4, 4, 7, 7],
            [5, 5, 8, 9],
            [5, 5, 7, 8],
            [0; 4],
        ] {
            assert_eq!(stated(&mut strict, small, dates), 9, "{manager} {dates:?}");
        }
        // Another bundle has other dates, and one that is too large has none.
        assert_eq!(stated(&mut strict, request(5, 15, 0), [5, 5, 8, 8]), 9);
        assert_eq!(stated(&mut strict, request(5, 101, 0), [5, 5, 8, 8]), 9);
        assert_eq!(stated(&mut strict, small, [5, 5, 8, 8]), 17);
        // Dates that are not equal and not offered.
        assert_eq!(stated(&mut strict, small, [5, 6, 8, 9]), 9);
    }
}

/// A priority record of so many segments: each booking strictly inside lists two
/// more, and one beside the last one more.
fn filled(strict: u64, listed: usize) -> Reading {
    let window = Window { start: 0, end: 200 };
    let rated = Rated::of(plain(strict), stated::plain(window, 10, 3));
    let mut reading = opened(Manager::Priority, Opening::Rated(rated));
    let mut time = 2;
    while list(&mut reading).len() < listed {
        let is_last = list(&mut reading).len() + 1 == listed;
        let beside = i64::from(is_last);
        assert_eq!(book(&mut reading, time - beside, 10, 0), 0);
        time += 2;
    }
    assert_eq!(list(&mut reading).len(), listed);
    reading
}

#[test]
fn before_10() {
    for (listed, off) in [(61, 0), (62, 0), (63, 10), (64, 10)] {
        let empty = request(150, 9, 0);
        let dates = [150, 150, 153, 153];
        let mut reading = filled(OFF, listed);
        assert_eq!(stated(&mut reading, empty, dates), off);

        let mut strict = filled(ON, listed);
        assert_eq!(shown(&mut strict, empty), Ok(dates));
        assert_eq!(stated(&mut strict, empty, dates), 17);
        assert_eq!(list(&mut strict).len(), listed);
        // One tick longer, and it is as with the flag off.
        let tick = request(150, 10, 0);
        assert_eq!(stated(&mut strict, tick, [150, 151, 153, 154]), off);
    }
}

/// Class 1 is empty and class 0, to which its bookings are added too, is full.
#[test]
fn before_13() {
    for (strict, number) in [(OFF, 13), (ON, 17)] {
        let mut reading = contact(Manager::Queue, strict);
        let full = Field::Queue(QueueField::Queue(0, two_to(41)));
        assert_eq!(reading.ask(&Call::Write(full)).number(), 0);
        assert_eq!(shown(&mut reading, request(5, 9, 1)), Ok([5, 5, 8, 8]));
        assert_eq!(book(&mut reading, 5, 9, 1), number);
        assert_eq!(book(&mut reading, 5, 10, 1), 13);
    }
}

/// A record that breaks its rules is 1, whatever is stated.
#[test]
fn after_1() {
    for manager in Manager::ALL {
        let mut reading = Reading::of(manager);
        assert_eq!(stated(&mut reading, request(5, 9, 0), [5, 5, 8, 8]), 1);
        let mut strict = contact(manager, ON);
        let none = Call::Write(Field::flag(manager, 2));
        assert_eq!(strict.ask(&none).number(), 1);
        assert_eq!(stated(&mut strict, request(5, 9, 0), [5, 5, 8, 8]), 1);
    }
}
