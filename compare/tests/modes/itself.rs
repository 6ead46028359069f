//! The reading against itself: no difference, and everything is asked.

use oracle::modes::dialogues::{Dialogues, Modes};
use oracle::modes::figures::Sort;
use oracle::modes::reading::Reading;
use oracle::modes::terms::{EXACT, PORTED};
use oracle::modes::{Settings, check};
use oracle::rules::{EARLIER, LATER};
use oracle::trial::choices::Flag;

#[test]
fn every_outcome_is_met_in_both_modes() {
    let settings = Settings {
        calls: 200_000,
        seed: 62,
        modes: Modes::Both,
    };
    let outcome = check(&settings, Reading::default);
    let figures = outcome.figures;
    println!("{figures}");
    assert!(outcome.found.is_none());
    for mode in [PORTED, EXACT] {
        for (sort, numbers) in [
            (Sort::Opening, &[0, 3, 5, 11][..]),
            (Sort::DryRun, &[0, 1, 2, 7, 8]),
            (Sort::Booking, &[0, 1, 2, 9, 10]),
            (Sort::List, &[0, 1]),
            (Sort::Write, &[0, 1]),
        ] {
            for number in numbers {
                let count = figures.answered(mode, sort, *number);
                assert!(count > 50, "{mode} {sort:?} {number}: {count}");
            }
        }
    }
    assert!(figures.answered(0, Sort::Opening, 2) > 600);
    for sort in [Sort::DryRun, Sort::Booking, Sort::List, Sort::Write] {
        assert!(figures.answered(0, sort, 1) > 500, "{sort:?}");
    }
    assert_eq!(figures.longest_list, 64);
    assert!(figures.apart > 5_000);
    assert!(figures.calls_of(EXACT) > 2 * figures.calls_of(PORTED));
}

/// Only under rule 1 does a lookup find nothing: 8.
#[test]
fn every_outcome_is_met_under_both_rules() {
    let settings = Settings {
        calls: 200_000,
        seed: 64,
        modes: Modes::Both,
    };
    let figures = check(&settings, Reading::default).figures;
    for rule in [EARLIER, LATER] {
        for (sort, numbers) in [
            (Sort::Opening, &[0, 3, 5, 11][..]),
            (Sort::DryRun, &[0, 1, 2, 7]),
            (Sort::Booking, &[0, 1, 2, 9, 10]),
            (Sort::List, &[0, 1]),
            (Sort::Write, &[0, 1]),
        ] {
            for number in numbers {
                let count = figures.answered_under(rule, sort, *number);
                assert!(count > 50, "{rule} {sort:?} {number}: {count}");
            }
        }
    }
    assert!(figures.answered_under(EARLIER, Sort::DryRun, 8) > 100);
    assert_eq!(figures.answered_under(LATER, Sort::DryRun, 8), 0);
    assert!(figures.answered_under(LATER, Sort::Opening, 5) > 1_000);
    assert!(figures.answered_under(0, Sort::Opening, 2) > 600);
    for sort in [Sort::DryRun, Sort::Booking, Sort::List, Sort::Write] {
        assert!(figures.answered_under(0, sort, 1) > 500, "{sort:?}");
    }
    assert!(figures.apart_by_rule > 3_000);
    assert!(figures.calls_under(LATER) > figures.calls_under(EARLIER));
}

/// Half of what is opened is strict; no send of a polynomial is refused there.
#[test]
fn every_outcome_is_met_with_either_flag() {
    let settings = Settings {
        calls: 200_000,
        seed: 65,
        modes: Modes::Both,
    };
    let figures = check(&settings, Reading::default).figures;
    for flag in [Flag::Off, Flag::On] {
        assert!(3 * figures.calls_with(flag) > settings.calls, "{flag:?}");
        for (sort, numbers) in [
            (Sort::DryRun, &[0, 1, 2, 7, 8][..]),
            (Sort::Booking, &[0, 1, 2, 9, 10]),
            (Sort::Write, &[0, 1]),
        ] {
            for number in numbers {
                let count = figures.answered_with(flag, sort, *number);
                assert!(count > 50, "{flag:?} {sort:?} {number}: {count}");
            }
        }
        assert_eq!(figures.answered_with(flag, Sort::Booking, 17), 0);
    }
    assert!(figures.answered_with(Flag::None, Sort::Opening, 2) > 500);
    for sort in [Sort::DryRun, Sort::Booking, Sort::List, Sort::Write] {
        assert!(figures.answered_with(Flag::None, sort, 1) > 200, "{sort:?}");
    }
}

/// Each of R-6's claims is held often.
#[test]
fn claims_are_held() {
    let settings = Settings {
        calls: 100_000,
        seed: 63,
        modes: Modes::Both,
    };
    let claims = check(&settings, Reading::default).figures.claims;
    println!("{claims:?}");
    assert!(claims.is_equal > 1_000);
    assert!(claims.held - claims.is_equal > 5_000);
    assert!(claims.by_ticks > 5_000);
    assert!(claims.is_first > 2_000);
}

#[test]
fn the_same_seed_gives_the_same_dialogues() {
    let ten = |seed| {
        let mut dialogues = Dialogues::of(seed, Modes::Both);
        [(); 10].map(|()| dialogues.dialogue())
    };
    assert_eq!(ten(7), ten(7));
    assert_ne!(ten(7), ten(8));
}
