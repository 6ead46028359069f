//! The original's lists keep document 01's rules for records over generated
//! runs: what a port demands of a record never refuses one of the original's.

use oracle::Oracle;
use oracle::frames::{self, Content, Frame, Span, Window};
use oracle::generate::{Kind, Stream};

const SEED: u64 = 50;
const FRAMES: usize = 40_000;

/// Asks a run and hands over each list after an accepted opening or booking,
/// with the opening it goes back to.
fn each_list(kind: Kind, mut hold: impl FnMut(&Frame, &[Span])) -> usize {
    let run = Stream::new(kind, SEED).run(FRAMES);
    let mut oracle = Oracle::new();
    let mut opening = None;
    let mut held = 0;
    for frame in run.lines().filter_map(frames::decode) {
        if oracle.answer_frame(&frame).is_err() {
            continue;
        }
        match frame {
            Frame::Book(..) => {}
            Frame::OpenFree(_) | Frame::OpenPriority(_) | Frame::OpenPoly(_) => {
                opening = Some(frame);
            }
            Frame::OpenQueue(_) => opening = None,
            _ => continue,
        }
        if let Some(opening) = &opening {
            let Ok(Content::Segments(listed)) = oracle.answer_frame(&Frame::List) else {
                panic!("segments are listed");
            };
            hold(opening, &listed);
            held += 1;
        }
    }
    held
}

/// In the window, none backward, each end strictly before the next start.
fn hold_free_list(window: Window, listed: &[Span]) {
    assert!((1..=64).contains(&listed.len()));
    assert!(window.start <= listed[0].start && listed[listed.len() - 1].end <= window.end);
    assert!(listed.iter().all(|span| span.start <= span.end));
    assert!(listed.windows(2).all(|pair| pair[0].end < pair[1].start));
}

/// The exact capacity of a listed segment.
fn capacity(rates: &[Span], span: &Span) -> i64 {
    let of_part = |rate: &Span| {
        let start = rate.start.max(span.start);
        let end = rate.end.min(span.end);
        rate.value * (end - start).max(0)
    };
    rates.iter().map(of_part).sum()
}

#[test]
fn free_lists() {
    let held = each_list(Kind::Free, |opening, listed| {
        if let Frame::OpenFree(opening) = opening {
            hold_free_list(opening.window, listed);
            for span in listed {
                assert!(0 <= span.value && span.value <= capacity(&opening.rates, span));
            }
        }
    });
    assert!(held > FRAMES / 10);
}

#[test]
fn booking_lists() {
    let held = each_list(Kind::Priority, |opening, listed| {
        if let Frame::OpenPriority(opening) = opening {
            let window = opening.window;
            assert!((1..=64).contains(&listed.len()));
            assert_eq!(listed[0].start, window.start);
            assert_eq!(listed[listed.len() - 1].end, window.end);
            assert!(listed.iter().all(|span| span.start <= span.end));
            assert!(listed.windows(2).all(|pair| pair[0].end == pair[1].start));
            assert!(listed.iter().all(|span| (-1..=127).contains(&span.value)));
        }
    });
    assert!(held > FRAMES / 10);
}

#[test]
fn polynomial_lists() {
    let held = each_list(Kind::Poly, |opening, listed| {
        if let Frame::OpenPoly(opening) = opening {
            hold_free_list(opening.window, listed);
            assert!(listed.iter().all(|span| span.value == 0));
        }
    });
    assert!(held > FRAMES / 10);
}
