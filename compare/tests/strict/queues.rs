//! Queues under the flag.

use oracle::frames::{QueueOpening, flag as flags};
use oracle::stated::{load, queue_a, request};
use oracle::strict::calls::Calls;
use oracle::strict::flag::{OFF, ON};
use oracle::strict::queues::terms::Opening as Queue;
use oracle::strict::reading::Reading;
use oracle::strict::terms::{Call, Manager, Opening};
use oracle::trial::answers::Said;

use super::{book, opened, shown};

const BOTH: u8 = flags::ADDED_DELAY | flags::SELF_UPDATE;

fn queue(strict: u64, contact: QueueOpening) -> Reading {
    opened(Manager::Queue, Opening::Queue(Queue { strict, contact }))
}

/// Case 11's contact, of delay 2.
fn case_11(strict: u64, flags: u8) -> Reading {
    let contact = QueueOpening {
        delay: 2,
        ..queue_a(3, flags)
    };
    queue(strict, contact)
}

fn queued(reading: &mut Reading) -> Vec<i64> {
    match reading.ask(&Call::List) {
        Said::Queued(queues) => queues,
        said => panic!("no queues: {said}"),
    }
}

#[test]
fn case_11_and_a_small_bundle() {
    for (strict, number, after) in [(OFF, 0, [34, 25, 0]), (ON, 17, [25, 25, 0])] {
        let mut reading = case_11(strict, BOTH);
        assert_eq!(shown(&mut reading, request(0, 25, 1)), Ok([0, 2, 2, 4]));
        assert_eq!(book(&mut reading, 0, 25, 1), 0);
        assert_eq!(queued(&mut reading), [25, 25, 0]);
        assert_eq!(shown(&mut reading, request(0, 25, 0)), Ok([2, 4, 4, 6]));
        assert_eq!(shown(&mut reading, request(0, 9, 0)), Ok([2, 2, 4, 4]));
        assert_eq!(book(&mut reading, 0, 9, 0), number);
        assert_eq!(queued(&mut reading), after);
    }
}

/// Without self-update a booking changes nothing, and is refused all the same.
#[test]
fn without_self_update() {
    for flags in [0, flags::ADDED_DELAY] {
        for (strict, number) in [(OFF, 0), (ON, 17)] {
            let mut reading = case_11(strict, flags);
            assert_eq!(shown(&mut reading, request(3, 9, 0)), Ok([3, 3, 5, 5]));
            assert_eq!(book(&mut reading, 3, 9, 0), number);
            assert_eq!(book(&mut reading, 3, 10, 0), 0);
            assert_eq!(queued(&mut reading), [0, 0, 0]);
        }
    }
}

/// Manual queueing has no send, and is as it was.
#[test]
fn by_hand() {
    for strict in [OFF, ON] {
        let mut reading = case_11(strict, 0);
        let mut ask = |call: Call| reading.ask(&call).number();
        assert_eq!(ask(Call::Enqueue(load(9, 1))), 0);
        assert_eq!(ask(Call::Enqueue(load(1, 0))), 0);
        assert_eq!(ask(Call::Dequeue(load(9, 1))), 0);
        assert_eq!(ask(Call::Dequeue(load(1, 1))), 13);
        assert_eq!(queued(&mut reading), [1, 0, 0]);

        let mut reading = case_11(strict, BOTH);
        assert_eq!(reading.ask(&Call::Enqueue(load(9, 0))).number(), 12);
        assert_eq!(reading.ask(&Call::Dequeue(load(9, 0))).number(), 12);
    }
}

/// At the window's end there is room for no time at all.
#[test]
fn at_the_windows_end() {
    for (strict, number) in [(OFF, 0), (ON, 17)] {
        let mut reading = case_11(strict, BOTH);
        assert_eq!(shown(&mut reading, request(10, 9, 0)), Ok([10, 10, 12, 12]));
        assert_eq!(shown(&mut reading, request(10, 10, 0)), Err(7));
        assert_eq!(shown(&mut reading, request(11, 9, 0)), Err(7));
        assert_eq!(book(&mut reading, 10, 9, 0), number);
    }
}

/// Budgets, and a class that has none left.
#[test]
fn budgeted() {
    let mut contact = queue_a(2, flags::SELF_UPDATE | flags::BUDGETED);
    contact.budgets[..2].copy_from_slice(&[20, 5]);
    for (strict, number) in [(OFF, 0), (ON, 17)] {
        let mut reading = queue(strict, contact.clone());
        assert_eq!(shown(&mut reading, request(0, 6, 1)), Err(7));
        assert_eq!(book(&mut reading, 0, 5, 1), number);
        assert_eq!(book(&mut reading, 0, 10, 0), 0);
        let left = 10 - if strict == OFF { 5 } else { 0 };
        assert_eq!(shown(&mut reading, request(0, left + 1, 0)), Err(7));
        assert!(shown(&mut reading, request(0, left, 0)).is_ok());
    }
}

/// With one unit a tick every size has its ticks.
#[test]
fn a_rate_of_one() {
    let contact = QueueOpening {
        rate: 1,
        ..queue_a(1, flags::SELF_UPDATE)
    };
    let mut strict = queue(ON, contact);
    assert_eq!(shown(&mut strict, request(9, 1, 0)), Ok([9, 10, 12, 13]));
    assert_eq!(book(&mut strict, 9, 1, 0), 0);
}
