//! The two ways to the capacity and to u say the same.

use oracle::editions::reading::capacity::{Segments, Ticks};
use oracle::frames::{Span, Window};
use oracle::generate::openings::{placed, tiled};
use oracle::generate::rng::Rng;

const CONTACTS: usize = 2_000;

fn compare(window: Window, rates: &[Span]) -> usize {
    let (ticks, segments) = (Ticks::of(window, rates), Segments::of(window, rates));
    let total = ticks.between(window.start, window.end) as i64;
    let mut compared = 0;
    for from in window.start..=window.end {
        for to in from..=window.end {
            assert_eq!(ticks.between(from, to), segments.between(from, to));
            compared += 1;
        }
        for size in 1..=total + 1 {
            assert_eq!(ticks.reaches(from, size), segments.reaches(from, size));
            compared += 1;
        }
    }
    compared
}

#[test]
fn ticks_and_segments_agree() {
    let mut rng = Rng::new(50);
    let mut compared = 0;
    for _ in 0..CONTACTS {
        let length = rng.between(1, 12);
        let window = placed(&mut rng, length);
        let rates = tiled(&mut rng, window, 5, |rng, _| rng.between(0, 4));
        compared += compare(window, &rates);
    }
    println!("{compared} figures compared");
    assert!(compared > 100_000);
}

/// At the limits, where only the segments can be gone through.
#[test]
fn segments_at_the_limits() {
    let (start, end) = ((1 << 40) - (1 << 24), 1 << 40);
    let window = Window { start, end };
    let rates = [Span {
        start,
        end,
        value: 1 << 14,
    }];
    let segments = Segments::of(window, &rates);
    assert_eq!(segments.between(start, end), 1 << 38);
    assert_eq!(segments.reaches(start, 1 << 38), Some(end));
    assert_eq!(segments.reaches(start, (1 << 38) - 1), Some(end));
    assert_eq!(
        segments.reaches(start, (1 << 38) - (1 << 14)),
        Some(end - 1)
    );
    assert_eq!(segments.reaches(start + 1, 1 << 38), None);
    assert_eq!(segments.reaches(end, 1), None);
    assert_eq!(segments.reaches(end - 1, 1), Some(end));
}
