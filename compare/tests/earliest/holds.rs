//! The claim on the oracle's own answers.

use oracle::Oracle;
use oracle::earliest::Runs;
use oracle::earliest::figures::Figures;
use oracle::earliest::watch::Watch;

use super::lines;

const SEED: u64 = 80;
/// Two runs of either sort.
const RUNS: usize = 4;
const FRAMES: usize = 40_000;

fn answers(frames: &[u8]) -> Vec<u8> {
    let mut oracle = Oracle::new();
    let mut answers = Vec::new();
    for line in lines(frames) {
        oracle.answer_into(line, &mut answers);
        answers.push(b'\n');
    }
    answers
}

#[test]
fn the_oracle_always_offers_the_earliest_place() {
    let mut runs = Runs::new(SEED);
    let mut watch = Watch::new();
    for turn in 0..RUNS {
        let frames = runs.next(FRAMES);
        let empty_before = watch.figures.empty_segment;
        assert_eq!(watch.see_run(&frames, &answers(&frames)), None);
        let empty = watch.figures.empty_segment - empty_before;
        // Every second run books no send of zero length.
        assert_eq!(empty == 0, turn % 2 == 1, "run {turn}: {empty}");
    }
    println!("{}", watch.figures);
    hold_enough(&watch.figures);
}

/// Each way in which the claim can fail must have had its chances.
fn hold_enough(figures: &Figures) {
    assert!(figures.checked > 30_000, "{figures}");
    assert!(figures.later > 2_000, "{figures}");
    assert!(figures.without_length > 3_000, "{figures}");
    assert!(figures.none_by_bookings > 5_000, "{figures}");
    assert!(figures.on_long_lists > 4_000, "{figures}");
    assert_eq!(figures.longest_list, 64);
    assert_eq!(figures.offers + figures.none, figures.checked);
    assert_eq!((figures.differences, figures.not_listed), (0, 0));
    let passed = [
        figures.no_record,
        figures.bad_bundle,
        figures.long_window,
        figures.empty_segment,
    ];
    assert!(passed.iter().all(|count| *count > 100), "{figures}");
    assert!(figures.contradictions > 100, "{figures}");
}
