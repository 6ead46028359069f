//! Frame 15 (document 02, R-1): that it is asked often enough to tell a sum that
//! is kept wrongly from one that is kept true.

extern crate asabr;

use asabr::contact::ContactInfo;
use asabr::contact_manager::ContactManager;
use asabr::contact_manager::segmentation::Segment;
use asabr::contact_manager::segmentation::seg::SegmentationManager;
use asabr::types::NodeID;
use oracle::Oracle;
use oracle::frames::{self, Answer, Content, Dates, Frame, RatedOpening};
use oracle::generate::openings::capacity;
use oracle::generate::sink::Run;
use oracle::generate::{Kind, Stream};
use oracle::refusal::Refusal;
use oracle::segmented::Lists;

const SEED: u64 = 60;
const FRAMES: usize = 40_000;

fn run(kind: Kind) -> Run {
    Stream::new(kind, SEED).run(FRAMES)
}

fn is_room(line: &[u8]) -> bool {
    frames::decode(line) == Some(Frame::Room)
}

// ---------------------------------------------------------------------------
// How often it is asked

#[test]
fn kind_room_asks_after_every_other_frame() {
    let run = run(Kind::Room);
    let lines: Vec<&[u8]> = run.lines().collect();
    assert!(!is_room(lines[0]));
    assert!(
        lines
            .windows(2)
            .all(|pair| is_room(pair[0]) || is_room(pair[1]))
    );
    let rooms = lines.iter().filter(|line| is_room(line)).count();
    assert_eq!(rooms, run.rooms);
    assert!(10 * rooms > 4 * run.count, "{rooms} of {}", run.count);
}

/// How many frames 15 of a run of this kind have such an answer.
fn answered(kind: Kind, as_expected: fn(&Answer) -> bool) -> usize {
    let mut oracle = Oracle::new();
    run(kind)
        .lines()
        .map(|line| (is_room(line), oracle.answer_line(line)))
        .filter(|(is_room, answer)| *is_room && as_expected(answer))
        .count()
}

#[test]
fn every_kind_asks_now_and_then() {
    let with_sum = |answer: &Answer| matches!(answer, Ok(Content::Room(_)));
    let with_12 = |answer: &Answer| *answer == Err(Refusal::NotManual);
    for kind in [Kind::Free, Kind::Malformed, Kind::All] {
        assert!(answered(kind, with_sum) > 100, "{kind:?}");
    }
    for kind in [
        Kind::Priority,
        Kind::Poly,
        Kind::Queue,
        Kind::Malformed,
        Kind::All,
    ] {
        assert!(answered(kind, with_12) > 100, "{kind:?}");
    }
}

// ---------------------------------------------------------------------------
// Sums that are kept wrongly

/// What a program that keeps the sum goes by: `carried` is the exact capacity
/// of the send, `change` what the booking added to the original's own list.
enum Event {
    Opened {
        total: i64,
    },
    NotOpened,
    Booked {
        size: i64,
        carried: i64,
        change: i64,
    },
    NotBooked {
        size: i64,
    },
}

type Keep = fn(&mut i64, &Event);

fn keep_true(sum: &mut i64, event: &Event) {
    match event {
        Event::Opened { total } => *sum = *total,
        Event::Booked { change, .. } => *sum += change,
        Event::NotOpened | Event::NotBooked { .. } => {}
    }
}

const WRONG: [(&str, Keep); 7] = [
    ("a booking leaves it", |sum, event| match event {
        Event::Booked { .. } => {}
        _ => keep_true(sum, event),
    }),
    ("a booking takes its size off", |sum, event| match event {
        Event::Booked { size, .. } => *sum -= size,
        _ => keep_true(sum, event),
    }),
    (
        "a booking takes its capacity off",
        |sum, event| match event {
            Event::Booked { carried, .. } => *sum -= carried,
            _ => keep_true(sum, event),
        },
    ),
    ("it never rises", |sum, event| match event {
        Event::Booked { change, .. } => *sum += change.min(&0),
        _ => keep_true(sum, event),
    }),
    (
        "a refused booking takes its size off",
        |sum, event| match event {
            Event::NotBooked { size } => *sum -= size,
            _ => keep_true(sum, event),
        },
    ),
    ("a refused opening clears it", |sum, event| match event {
        Event::NotOpened => *sum = 0,
        _ => keep_true(sum, event),
    }),
    ("an opening adds to it", |sum, event| match event {
        Event::Opened { total } => *sum += total,
        _ => keep_true(sum, event),
    }),
];

fn listed(oracle: &mut Oracle) -> i64 {
    match oracle.answer_frame(&Frame::List) {
        Ok(Content::Segments(spans)) => spans.iter().map(|span| span.value).sum(),
        _ => panic!("a free record lists segments"),
    }
}

/// How many frames 15 a program that keeps its sum so answers otherwise.
fn differences(run: &Run, keep: Keep) -> usize {
    let mut oracle = Oracle::new();
    let mut open: Option<RatedOpening> = None;
    let mut before = 0;
    let mut sum = 0;
    let mut differences = 0;
    for frame in run.lines().filter_map(frames::decode) {
        let answer = oracle.answer_frame(&frame);
        match (&frame, &answer) {
            (Frame::Room, Ok(Content::Room(room))) => {
                differences += usize::from(sum != *room);
                continue;
            }
            (Frame::OpenFree(opening), Ok(_)) => open = Some(opening.clone()),
            (Frame::OpenPriority(_) | Frame::OpenPoly(_) | Frame::OpenQueue(_), Ok(_)) => {
                open = None;
            }
            _ => {}
        }
        let Some(opening) = &open else { continue };
        let after = listed(&mut oracle);
        if let Some(event) = event(&frame, &answer, opening, after - before) {
            keep(&mut sum, &event);
        }
        before = after;
    }
    differences
}

fn event(frame: &Frame, answer: &Answer, opening: &RatedOpening, change: i64) -> Option<Event> {
    match (frame, answer) {
        (Frame::OpenFree(_), Ok(_)) => Some(Event::Opened {
            total: capacity(&opening.rates, opening.window.start, opening.window.end),
        }),
        (
            Frame::OpenFree(_) | Frame::OpenPriority(_) | Frame::OpenPoly(_) | Frame::OpenQueue(_),
            Err(_),
        ) => Some(Event::NotOpened),
        (Frame::Book(request, Dates([start, end, ..])), Ok(_)) => Some(Event::Booked {
            size: request.load.size,
            carried: capacity(&opening.rates, *start, *end),
            change,
        }),
        (Frame::Book(request, _), Err(Refusal::NotOffered)) => Some(Event::NotBooked {
            size: request.load.size,
        }),
        _ => None,
    }
}

#[test]
fn sums_that_are_kept_wrongly_are_seen() {
    for kind in [Kind::Room, Kind::Free] {
        let run = run(kind);
        assert_eq!(differences(&run, keep_true), 0, "{kind:?}");
        for (about, keep) in WRONG {
            let seen = differences(&run, keep);
            println!("{kind:?}, {about}: {seen} answers differ");
            assert!(seen > 0, "{kind:?}: {about}");
        }
    }
}

// ---------------------------------------------------------------------------
// A sum that no answer can hold

/// Outside the limits the original lists volumes of any size: the sum is then a
/// fault, and neither a panic nor another number.
#[test]
fn a_sum_past_its_answer_is_a_fault() {
    let most = i128::from(i64::MAX);
    assert_eq!(one_tick(most).room(), Ok(i64::MAX));
    assert_eq!(one_tick(most + 1).room(), Err(Refusal::Fault));
    assert_eq!(one_tick(i128::MAX).room(), Err(Refusal::Fault));
}

fn one_tick(rate: i128) -> SegmentationManager {
    let whole = |val| {
        vec![Segment {
            start: 0,
            end: 1,
            val,
        }]
    };
    let mut manager = SegmentationManager::new(whole(rate), whole(0));
    let info = ContactInfo::new(NodeID::from(0), NodeID::from(1), 0, 1);
    assert!(manager.try_init(&info));
    manager
}
