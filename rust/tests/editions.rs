//! Document 02's R-5 through the package: the second edition of the end rule,
//! beside the first.

mod common;

use std::fmt::Debug;

use common::{book, book_stated, offered, refuses};
use howrekano::{
    Bundle, Choices, DelaySegment, FreeVolume, Interval, Manager, Offer, PrioritySeg, RateSegment,
    Record, Refusal, VolumeSegment,
};

const FIRST: Choices = edition(1);
const SECOND: Choices = edition(2);

/// Editions that there are not.
const NONE: [u64; 3] = [0, 3, u64::MAX];

const fn edition(edition: u64) -> Choices {
    Choices {
        edition,
        rule: 1,
        strict: 0,
    }
}

const fn bundle(size: u64, priority: u8) -> Bundle {
    Bundle { size, priority }
}

/// Contact A of document 01.
mod a {
    use super::{DelaySegment, Interval, RateSegment};

    pub const WINDOW: Interval = Interval { start: 0, end: 10 };
    pub const RATES: [RateSegment; 1] = [RateSegment {
        start: 0,
        end: 10,
        rate: 10,
    }];
    pub const DELAYS: [DelaySegment; 1] = [DelaySegment {
        start: 0,
        end: 10,
        delay: 3,
    }];
}

fn free(choices: Choices) -> FreeVolume {
    FreeVolume::open_with(choices, a::WINDOW, &a::RATES, &a::DELAYS).unwrap()
}

fn priority(choices: Choices) -> PrioritySeg {
    PrioritySeg::open_with(choices, a::WINDOW, &a::RATES, &a::DELAYS).unwrap()
}

/// When a bundle is sent that is asked for at this time.
fn sent<R: Record>(
    contact: &Manager<R>,
    at: u64,
    size: u64,
    priority: u8,
) -> Result<(u64, u64), Refusal> {
    let send = offered(contact, at, bundle(size, priority))?.send;
    Ok((send.start, send.end))
}

fn volumes(contact: &FreeVolume) -> Vec<(u64, u64, u64)> {
    let listed = contact.list().iter();
    listed.map(|s| (s.start, s.end, s.volume)).collect()
}

// ---------------------------------------------------------------------------
// Document 01's cases under both editions

#[test]
fn case_5_puts_29_units_into_two_ticks_of_ten_under_edition_1_alone() {
    let [first, second] = [FIRST, SECOND].map(|choices| {
        let mut contact = free(choices);
        book(&mut contact, 5, bundle(50, 0)).unwrap();
        contact
    });
    assert_eq!(sent(&first, 3, 29, 0), Ok((3, 5)));
    assert_eq!(sent(&first, 3, 30, 0), Err(Refusal::NO_OFFER));
    assert_eq!(sent(&second, 3, 20, 0), Ok((3, 5)));
    for size in [21, 29, 30] {
        assert_eq!(sent(&second, 3, size, 0), Err(Refusal::NO_OFFER), "{size}");
    }
}

#[test]
fn case_2_lists_what_the_rest_carries() {
    for (choices, listed) in [(FIRST, (1, 10, 85)), (SECOND, (2, 10, 80))] {
        let mut contact = free(choices);
        book(&mut contact, 0, bundle(15, 0)).unwrap();
        assert_eq!(volumes(&contact), [listed]);
        assert_eq!(contact.room(), listed.2);
    }
}

#[test]
fn case_3_takes_a_tick_and_keeps_the_right_part() {
    let mut contact = free(SECOND);
    assert_eq!(sent(&free(FIRST), 5, 9, 0), Ok((5, 5)));
    assert_eq!(sent(&contact, 5, 9, 0), Ok((5, 6)));
    book(&mut contact, 5, bundle(9, 0)).unwrap();
    assert_eq!(volumes(&contact), [(0, 5, 50), (6, 10, 40)]);
}

#[test]
fn case_9_lists_no_empty_stretch() {
    for (choices, lengths) in [(FIRST, [5, 0, 5]), (SECOND, [5, 1, 4])] {
        let mut contact = priority(choices);
        book(&mut contact, 5, bundle(9, 0)).unwrap();
        let listed: Vec<u64> = contact.list().iter().map(|s| s.end - s.start).collect();
        assert_eq!(listed, lengths);
    }
}

#[test]
fn the_window_is_the_priority_managers_deadline() {
    assert_eq!(sent(&priority(FIRST), 8, 29, 0), Err(Refusal::NO_OFFER));
    assert_eq!(sent(&priority(FIRST), 8, 20, 0), Ok((8, 10)));
    assert_eq!(sent(&priority(SECOND), 8, 20, 0), Ok((8, 10)));
    assert_eq!(sent(&priority(FIRST), 8, 19, 0), Ok((8, 9)));
    assert_eq!(sent(&priority(SECOND), 8, 19, 0), Ok((8, 10)));
}

#[test]
fn a_run_before_a_higher_booking_ends_where_its_final_unit_has_left() {
    for (choices, late) in [(FIRST, (3, 5)), (SECOND, (7, 10))] {
        let mut contact = priority(choices);
        book(&mut contact, 5, bundle(20, 1)).unwrap();
        assert_eq!(sent(&contact, 3, 20, 0), Ok((3, 5)));
        assert_eq!(sent(&contact, 3, 29, 0), Ok(late));
    }
}

// ---------------------------------------------------------------------------
// What is opened, and what is refused

#[test]
fn open_has_the_originals_choices() {
    assert_eq!(Choices::default(), FIRST);
    let opened = FreeVolume::open(a::WINDOW, &a::RATES, &a::DELAYS);
    assert_eq!(opened, Ok(free(Choices::default())));
    let opened = PrioritySeg::open(a::WINDOW, &a::RATES, &a::DELAYS);
    assert_eq!(opened, Ok(priority(Choices::default())));
}

#[test]
fn a_contact_keeps_its_edition() {
    for choices in [FIRST, SECOND] {
        let (mut free, mut priority) = (free(choices), priority(choices));
        for (at, size) in [(3, 15), (0, 7), (8, 20), (0, 101)] {
            let _ = book(&mut free, at, bundle(size, 0));
            let _ = book(&mut priority, at, bundle(size, 0));
            assert_eq!(free.choices(), choices);
            assert_eq!(priority.choices(), choices);
        }
    }
}

#[test]
fn an_edition_that_there_is_not_is_refused_before_all_else() {
    let backward = Interval { start: 10, end: 0 };
    let fast = a::RATES.map(|rate| RateSegment {
        rate: 1 << 39,
        ..rate
    });
    let openings = [
        (a::WINDOW, &a::RATES[..], &a::DELAYS[..], None),
        (backward, &a::RATES, &a::DELAYS, Some(Refusal::WINDOW)),
        (a::WINDOW, &[], &a::DELAYS, Some(Refusal::RATES)),
        (a::WINDOW, &fast, &a::DELAYS, Some(Refusal::VOLUME)),
        (a::WINDOW, &a::RATES, &[], Some(Refusal::DELAYS)),
    ];
    for (window, rates, delays, refused) in openings {
        let both = |choices| {
            let free = FreeVolume::open_with(choices, window, rates, delays);
            let priority = PrioritySeg::open_with(choices, window, rates, delays);
            [free.err(), priority.err()]
        };
        assert_eq!(both(FIRST), [refused; 2]);
        assert_eq!(both(SECOND), [refused; 2]);
        for none in NONE {
            assert_eq!(both(edition(none)), [Some(Refusal::CHOICE); 2], "{none}");
        }
    }
    assert_eq!(Refusal::CHOICE.number(), 2);
    assert!(Refusal::CHOICE.to_string().contains("edition 1 or 2"));
}

#[test]
fn a_record_of_an_edition_that_there_is_not_is_damaged() {
    for none in NONE {
        let mut record = *free(SECOND).record();
        record.contact.choices.edition = none;
        refuses(record);
        assert_eq!(record.room_left(), Err(Refusal::RECORD));
        let mut record = *priority(SECOND).record();
        record.contact.choices.edition = none;
        refuses(record);
    }
}

// ---------------------------------------------------------------------------
// Calls on a pass whose rate changes, the same at every run

const LENGTH: u64 = 40;
const PASS: Interval = Interval {
    start: 0,
    end: LENGTH,
};

/// A slow stretch, a silent one and a fast one.
const RATES: [RateSegment; 3] = [
    RateSegment {
        start: 0,
        end: 14,
        rate: 3,
    },
    RateSegment {
        start: 14,
        end: 18,
        rate: 0,
    },
    RateSegment {
        start: 18,
        end: LENGTH,
        rate: 7,
    },
];
const HIGHEST: u64 = 7;

const DELAYS: [DelaySegment; 1] = [DelaySegment {
    start: 0,
    end: LENGTH,
    delay: 3,
}];

fn free_pass() -> FreeVolume {
    FreeVolume::open_with(SECOND, PASS, &RATES, &DELAYS).unwrap()
}

fn priority_pass() -> PrioritySeg {
    PrioritySeg::open_with(SECOND, PASS, &RATES, &DELAYS).unwrap()
}

/// Times and bundles, by Knuth's linear congruence.
fn calls(seed: u64) -> impl Iterator<Item = (u64, Bundle)> {
    let mut state = seed;
    let mut below = move |bound| {
        state = state
            .wrapping_mul(6_364_136_223_846_793_005)
            .wrapping_add(1_442_695_040_888_963_407);
        (state >> 33) % bound
    };
    std::iter::repeat_with(move || {
        let bundle = bundle(1 + below(16), below(3) as u8);
        (below(LENGTH), bundle)
    })
}

/// The rate in force at a tick.
fn rate_at(tick: u64) -> u64 {
    let in_force = RATES.iter().find(|r| (r.start..r.end).contains(&tick));
    in_force.unwrap().rate
}

/// What the ticks from a to b carry.
fn carried(a: u64, b: u64) -> u64 {
    (a..b).map(rate_at).sum()
}

/// How many listed stretches hold the tick.
fn listed_at(contact: &FreeVolume, tick: u64) -> usize {
    let listed = contact.list().iter();
    listed.filter(|s| (s.start..s.end).contains(&tick)).count()
}

/// The kept type and the total calls on its record answer alike, and leave the
/// same record.
fn doors_agree<R: Record + Debug>(mut contact: Manager<R>, seed: u64) {
    let mut booked = 0;
    for (at, bundle) in calls(seed).take(400) {
        let offer = offered(&contact, at, bundle).unwrap_or_default();
        let answer = book_stated(&mut contact, at, bundle, offer);
        booked += u64::from(answer.is_ok());
    }
    assert!(booked > 5, "{booked} bookings say little");
}

#[test]
fn both_doors_answer_alike_under_edition_2() {
    for seed in 0..5 {
        doors_agree(free_pass(), seed);
        doors_agree(priority_pass(), seed);
    }
}

/// Is the send what edition 2 says: its last tick, and none before, brings what
/// is carried up to the size?
fn ends_with_its_final_unit(send: Interval, size: u64) {
    let Interval { start, end } = send;
    assert!(start < end, "{send:?} has no length");
    assert!(carried(start, end) >= size, "{send:?} carries below {size}");
    assert!(carried(start, end - 1) < size, "{send:?} is late: {size}");
}

#[test]
fn a_free_volume_send_ends_with_its_final_unit() {
    for seed in 10..15 {
        let mut contact = free_pass();
        for (at, bundle) in calls(seed).take(300) {
            if let Ok(Offer { send, .. }) = book(&mut contact, at, bundle) {
                ends_with_its_final_unit(send, bundle.size);
            }
        }
    }
}

#[test]
fn a_priority_send_does_too_and_no_empty_stretch_is_listed() {
    for seed in 20..25 {
        let mut contact = priority_pass();
        for (at, bundle) in calls(seed).take(300) {
            if let Ok(Offer { send, .. }) = book(&mut contact, at, bundle) {
                ends_with_its_final_unit(send, bundle.size);
            }
            assert!(contact.list().iter().all(|s| s.start < s.end));
        }
    }
}

#[test]
fn the_room_is_what_the_listed_ticks_carry() {
    for seed in 30..35 {
        let mut contact = free_pass();
        let mut before = contact.room();
        assert_eq!(before, carried(0, LENGTH));
        for (at, bundle) in calls(seed).take(300) {
            let _ = book(&mut contact, at, bundle);
            for VolumeSegment { start, end, volume } in contact.list() {
                assert_eq!(*volume, carried(*start, *end));
            }
            let ticks = (0..LENGTH).filter(|tick| listed_at(&contact, *tick) > 0);
            assert_eq!(contact.room(), ticks.map(rate_at).sum());
            assert!(contact.room() <= before, "a booking raised the room");
            before = contact.room();
        }
    }
}

/// Demand 3 under edition 2: no tick is booked twice or listed beside, and the
/// sizes fall below what the booked ticks carry by at most the highest rate less
/// one for each booking.
#[test]
fn sizes_never_exceed_what_the_booked_ticks_carry() {
    for seed in 40..45 {
        let mut contact = free_pass();
        let mut booked = Vec::new();
        for (at, bundle) in calls(seed).take(300) {
            let Ok(Offer { send, .. }) = book(&mut contact, at, bundle) else {
                continue;
            };
            booked.push((send, bundle.size));
            let mut held = 0;
            for tick in 0..LENGTH {
                let sends = booked.iter().map(|(send, _)| send);
                let sends = sends.filter(|s| (s.start..s.end).contains(&tick)).count();
                assert!(sends + listed_at(&contact, tick) <= 1, "tick {tick}");
                held += sends as u64 * rate_at(tick);
            }
            let sizes: u64 = booked.iter().map(|(_, size)| size).sum();
            assert!(sizes <= held, "{sizes} in {held}");
            assert!(held <= sizes + (HIGHEST - 1) * booked.len() as u64);
        }
        assert!(booked.len() > 5, "{booked:?} says little");
    }
}
