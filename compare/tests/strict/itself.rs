//! The reading against itself: no difference, and everything is asked.

use oracle::strict::dialogues::{Choices, Dialogues};
use oracle::strict::figures::{Figures, Sort};
use oracle::strict::reading::Reading;
use oracle::strict::terms::Manager;
use oracle::strict::{Settings, check};
use oracle::trial::Counted;
use oracle::trial::choices::Flag;

fn played(seed: u64) -> Figures {
    let settings = Settings {
        calls: 300_000,
        seed,
        choices: Choices::All,
    };
    let outcome = check(&settings, Reading::of);
    println!("{}", outcome.figures);
    assert!(outcome.found.is_none());
    outcome.figures
}

/// The numbers of each sort of call, with the flag off and on.
fn numbers(manager: Manager) -> Vec<(Sort, &'static [u8])> {
    let openings: &[u8] = match manager {
        Manager::Free | Manager::Priority => &[0, 3, 4, 5, 6],
        Manager::Poly => &[0, 3, 5, 11],
        Manager::Queue => &[0, 3, 5, 6, 14],
    };
    let bookings: &[u8] = match manager {
        Manager::Queue => &[0, 1, 2, 9, 13],
        _ => &[0, 1, 2, 9, 10],
    };
    let mut numbers = vec![
        (Sort::Opening, openings),
        (Sort::DryRun, &[0, 1, 2, 7]),
        (Sort::Booking, bookings),
        (Sort::List, &[0, 1]),
        (Sort::Write, &[0, 1]),
    ];
    match manager {
        Manager::Free => numbers.push((Sort::Room, &[0, 1])),
        Manager::Poly => numbers.push((Sort::DryRun, &[8])),
        Manager::Queue => {
            numbers.push((Sort::Enqueue, &[0, 1, 2, 12, 13]));
            numbers.push((Sort::Dequeue, &[0, 1, 2, 12, 13]));
        }
        Manager::Priority => {}
    }
    numbers
}

#[test]
fn every_outcome_is_met_with_either_flag() {
    let figures = played(72);
    for manager in Manager::ALL {
        for flag in [Flag::Off, Flag::On] {
            for (sort, numbers) in numbers(manager) {
                for number in numbers {
                    let count = figures.answered(manager, flag, sort, *number);
                    assert!(count > 15, "{manager} {flag:?} {sort:?} {number}: {count}");
                }
            }
        }
        for sort in [Sort::DryRun, Sort::Booking, Sort::List, Sort::Write] {
            let count = figures.answered(manager, Flag::None, sort, 1);
            assert!(count > 300, "{manager} {sort:?}: {count}");
        }
        let count = figures.answered(manager, Flag::None, Sort::Opening, 2);
        assert!(count > 100, "{manager}: {count}");
        assert!(figures.calls_of(manager) > 25_000, "{manager}");
    }
    assert_eq!(figures.longest_list, 64);
    assert!(figures.second > 20_000 && figures.exact > 10_000);
    assert!(2 * figures.later > figures.calls() / 2);
    // Half of all calls.
    assert!(2 * figures.calls_with(Flag::On) > figures.calls());
    assert!(5 * figures.calls_with(Flag::Off) > 2 * figures.calls());
}

/// 17 is met where the flag off accepts, and where it answers 10 and 13.
#[test]
fn seventeen_is_met_in_every_order() {
    let figures = played(73);
    let booked = |manager| figures.answered(manager, Flag::On, Sort::Booking, 17);
    for manager in [Manager::Free, Manager::Priority, Manager::Queue] {
        assert!(booked(manager) > 2_000, "{manager}");
        assert!(figures.twins.off(manager, 0) > 2_000, "{manager}");
        assert_eq!(figures.answered(manager, Flag::Off, Sort::Booking, 17), 0);
    }
    assert_eq!(booked(Manager::Poly), 0);
    assert!(figures.twins.off(Manager::Priority, 10) > 100);
    assert!(figures.twins.off(Manager::Queue, 13) > 100);
    assert!(figures.twins.alike > 150_000);
}

/// Each claim is held often.
#[test]
fn claims_are_held() {
    let claims = played(74).claims;
    println!("{claims:?}");
    assert!(claims.shown > 5_000);
    assert!(claims.unoffered > 3_000);
    assert!(claims.lengths > 5_000);
    assert!(claims.never_empty > 5_000);
    assert!(claims.ticks > 2_000);
    assert!(claims.filled > 4_000);
}

#[test]
fn the_same_seed_gives_the_same_dialogues() {
    let ten = |seed| {
        let mut dialogues = Dialogues::of(seed, Choices::All);
        [(); 10].map(|()| dialogues.dialogue())
    };
    assert_eq!(ten(7), ten(7));
    assert_ne!(ten(7), ten(8));
}
