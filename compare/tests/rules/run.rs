//! What `compare --kind rules` asks.

use std::collections::BTreeMap;

use oracle::Oracle;
use oracle::drive::differ::lines;
use oracle::frames::{self, Content, Dates, Frame};
use oracle::generate::{Kind, Stream};
use oracle::refusal::Refusal;
use oracle::state::By;

const FRAMES: usize = 150_000;

/// How often each kind of frame had each number from the reading of rule 2, from
/// the original and from neither.
fn numbers(kind: Kind, seed: u64) -> BTreeMap<(String, u8, u8), usize> {
    let run = Stream::new(kind, seed).run(FRAMES);
    let mut oracle = Oracle::new();
    let mut counts = BTreeMap::new();
    for (line, expected) in run.lines().zip(lines(&run.answers)) {
        let answer = oracle.answer_line(line);
        let Some(frame) = frames::decode(line) else {
            continue;
        };
        let mut digits = Vec::new();
        frames::encode_answer(&answer, &mut digits);
        assert_eq!([&digits[..], b"\n"].concat(), expected);
        let number = answer.map_or_else(Refusal::number, |_| 0);
        let by = format!("{:?}", oracle.answered());
        *counts.entry((by, frame.kind(), number)).or_default() += 1;
    }
    counts
}

#[test]
fn every_number_is_met_under_both_rules() {
    let counts = numbers(Kind::Rules, 40);
    println!("{counts:?}");
    let of = |by: By, kind: u8, number: u8| {
        let key = (format!("{by:?}"), kind, number);
        counts.get(&key).copied().unwrap_or(0)
    };
    for by in [By::Reading, By::Original] {
        for kind in [0x21, 0x22] {
            for number in [0, 3, 4, 5, 6] {
                assert!(of(by, kind, number) > 5, "{by:?} {kind:x} {number}");
            }
        }
        for number in [0, 3, 5, 11] {
            assert!(of(by, 0x23, number) > 5, "{by:?} 23 {number}");
        }
        for (kind, numbers) in [
            (0x10, &[0, 2, 7][..]),
            (0x11, &[0, 2, 9, 10]),
            (0x12, &[0]),
            (0x13, &[12]),
            (0x14, &[12]),
            (0x15, &[0, 12]),
        ] {
            for number in numbers {
                assert!(of(by, kind, *number) > 30, "{by:?} {kind:x} {number}");
            }
        }
    }
    for kind in [0x21, 0x22, 0x23] {
        assert!(of(By::Nobody, kind, 2) > 100);
    }
    // Under rule 2 the delays cover, and every lookup finds a segment.
    assert_eq!(of(By::Reading, 0x10, 8), 0);
    assert!(of(By::Original, 0x10, 8) > 20);
}

#[test]
fn more_than_half_is_under_rule_2() {
    let run = Stream::new(Kind::Rules, 41).run(FRAMES);
    assert!(2 * run.by_reading > run.count, "{}", run.by_reading);
    assert!(4 * run.by_original > run.count, "{}", run.by_original);
    assert!(run.by_reading + run.by_original <= run.count);
}

#[test]
fn all_and_malformed_contain_rules() {
    for kind in [Kind::All, Kind::Malformed] {
        let run = Stream::new(kind, 42).run(FRAMES);
        assert!(run.by_reading > 2_000, "{kind:?}: {}", run.by_reading);
    }
    for kind in [Kind::Free, Kind::Priority, Kind::Poly, Kind::Queue] {
        assert_eq!(Stream::new(kind, 42).run(FRAMES).by_reading, 0);
    }
}

/// Sends often begin or end where a delay changes.
#[test]
fn boundaries_are_met() {
    let run = Stream::new(Kind::Rules, 43).run(FRAMES);
    let mut oracle = Oracle::new();
    let mut inner: Vec<i64> = Vec::new();
    let (mut starts, mut ends, mut offers) = (0, 0, 0);
    for frame in run.lines().filter_map(frames::decode) {
        let answer = oracle.answer_frame(&frame);
        if let (Frame::OpenRuled(opening, 2), Ok(_)) = (&frame, &answer) {
            inner = inner_boundaries(opening.clone().plain());
        }
        if let Ok(Content::Offer(Dates([start, end, ..]))) = answer
            && oracle.answered() == By::Reading
        {
            offers += 1;
            starts += usize::from(inner.contains(&start));
            ends += usize::from(inner.contains(&end));
        }
    }
    println!("{starts} starts and {ends} ends of {offers} on an inner boundary");
    assert!(4 * starts > offers && 4 * ends > offers);
}

fn inner_boundaries(frame: Frame) -> Vec<i64> {
    let delays = match frame {
        Frame::OpenFree(contact) | Frame::OpenPriority(contact) => contact.delays,
        Frame::OpenPoly(contact) => contact.delays,
        _ => Vec::new(),
    };
    delays.iter().skip(1).map(|delay| delay.start).collect()
}

/// Frames 21 to 23 with rule 1 are 01 to 03: the same answers, frame by frame.
#[test]
fn rule_1_is_frames_01_to_03() {
    let run = Stream::new(Kind::Rules, 44).run(FRAMES);
    let (mut ruled, mut plain) = (Oracle::new(), Oracle::new());
    let mut compared = 0;
    for frame in run.lines().filter_map(frames::decode) {
        let frame = match frame {
            Frame::OpenRuled(opening, _) => Frame::OpenRuled(opening, 1),
            other => other,
        };
        let without = match &frame {
            Frame::OpenRuled(opening, _) => opening.clone().plain(),
            other => other.clone(),
        };
        assert_eq!(ruled.answer_frame(&frame), plain.answer_frame(&without));
        compared += 1;
    }
    assert!(compared > FRAMES / 2);
}
