//! The reading against itself: no difference, and everything is asked.

use oracle::editions::dialogues::{Dialogues, Editions};
use oracle::editions::figures::Sort;
use oracle::editions::reading::Reading;
use oracle::editions::terms::{FIRST, SECOND};
use oracle::editions::{Settings, check};
use oracle::rules::{EARLIER, LATER};
use oracle::trial::choices::Flag;

#[test]
fn every_outcome_is_met_in_both_editions() {
    let settings = Settings {
        calls: 200_000,
        seed: 52,
        editions: Editions::Both,
    };
    let outcome = check(&settings, Reading::of);
    let figures = outcome.figures;
    println!("{figures}");
    assert!(outcome.found.is_none());
    for edition in [FIRST, SECOND] {
        for (sort, numbers) in [
            (Sort::Opening, &[0, 3, 4, 5, 6][..]),
            (Sort::DryRun, &[0, 2, 7]),
            (Sort::Booking, &[0, 2, 9, 10]),
            (Sort::List, &[0]),
            (Sort::Room, &[0]),
        ] {
            for number in numbers {
                let count = figures.answered(edition, sort, *number);
                assert!(count > 20, "{edition} {sort:?} {number}: {count}");
            }
        }
    }
    assert!(figures.answered(0, Sort::Opening, 2) > 100);
    for sort in [Sort::DryRun, Sort::Booking, Sort::List, Sort::Room] {
        assert!(figures.answered(0, sort, 1) > 100, "{sort:?}");
    }
    assert_eq!(figures.longest_list, 64);
    assert!(figures.sums_second > 5_000);
    assert!(figures.apart > 5_000);
    assert!(figures.calls_of(SECOND) > 2 * figures.calls_of(FIRST));
}

#[test]
fn every_outcome_is_met_under_both_rules() {
    let settings = Settings {
        calls: 200_000,
        seed: 53,
        editions: Editions::Both,
    };
    let figures = check(&settings, Reading::of).figures;
    for rule in [EARLIER, LATER] {
        for (sort, numbers) in [
            (Sort::Opening, &[0, 3, 4, 5, 6][..]),
            (Sort::DryRun, &[0, 1, 2, 7]),
            (Sort::Booking, &[0, 1, 2, 9, 10]),
            (Sort::List, &[0, 1]),
            (Sort::Room, &[0, 1]),
            (Sort::Write, &[0, 1]),
        ] {
            for number in numbers {
                let count = figures.answered_under(rule, sort, *number);
                assert!(count > 20, "{rule} {sort:?} {number}: {count}");
            }
        }
    }
    assert!(figures.answered_under(0, Sort::Opening, 2) > 300);
    for sort in [Sort::DryRun, Sort::Booking, Sort::List, Sort::Room] {
        assert!(figures.answered_under(0, sort, 1) > 100, "{sort:?}");
    }
    assert!(figures.apart_by_rule > 2_000);
    assert!(3 * figures.calls_under(LATER) > 4 * figures.calls_under(EARLIER));
}

/// Half of what is opened is strict, and a small bundle is refused there.
#[test]
fn every_outcome_is_met_with_either_flag() {
    let settings = Settings {
        calls: 200_000,
        seed: 54,
        editions: Editions::Both,
    };
    let figures = check(&settings, Reading::of).figures;
    for flag in [Flag::Off, Flag::On] {
        assert!(3 * figures.calls_with(flag) > settings.calls, "{flag:?}");
        for (sort, numbers) in [
            (Sort::DryRun, &[0, 1, 2, 7][..]),
            (Sort::Booking, &[0, 1, 2, 9, 10]),
            (Sort::Write, &[0, 1]),
        ] {
            for number in numbers {
                let count = figures.answered_with(flag, sort, *number);
                assert!(count > 50, "{flag:?} {sort:?} {number}: {count}");
            }
        }
    }
    assert!(figures.answered_with(Flag::On, Sort::Booking, 17) > 500);
    assert_eq!(figures.answered_with(Flag::Off, Sort::Booking, 17), 0);
    assert!(figures.answered_with(Flag::None, Sort::Opening, 2) > 500);
    for sort in [Sort::DryRun, Sort::Booking, Sort::List, Sort::Room] {
        assert!(figures.answered_with(Flag::None, sort, 1) > 100, "{sort:?}");
    }
}

#[test]
fn the_same_seed_gives_the_same_dialogues() {
    let ten = |seed| {
        let mut dialogues = Dialogues::of(seed, Editions::Both);
        [(); 10].map(|()| dialogues.dialogue())
    };
    assert_eq!(ten(7), ten(7));
    assert_ne!(ten(7), ten(8));
}
