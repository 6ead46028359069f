//! What twins see by themselves: only the twin is wrong here, so that the reading
//! finds nothing.

use std::cell::Cell;

use oracle::strict::dialogues::Choices;
use oracle::strict::terms::{Call, Manager};
use oracle::strict::{Settings, check};
use oracle::trial::answers::About;

use super::wrong::{Flaw, Wrong};

/// What is told of a twin with this flaw beside a right one, if it is seen.
fn seen(flaw: Flaw) -> Option<About<Call>> {
    let settings = Settings {
        calls: 100_000,
        seed: 75,
        choices: Choices::All,
    };
    // Those under test are made first, and then their twin.
    let is_twin = Cell::new(true);
    let make = |manager: Manager| {
        is_twin.set(!is_twin.get());
        match is_twin.get() {
            true => Wrong::of(flaw, manager),
            false => Wrong::of(Flaw::None, manager),
        }
    };
    let found = check(&settings, make).found?;
    println!("{flaw:?}\n{found}");
    Some(found.difference.about)
}

#[test]
fn a_right_twin_is_not_seen() {
    assert_eq!(seen(Flaw::None), None);
}

#[test]
fn a_wrong_twin_is_seen() {
    for flaw in [
        Flaw::Always,
        Flaw::BeforeTwo,
        Flaw::BeforeNine,
        Flaw::Hidden,
        Flaw::Lengthened,
        Flaw::PassedOver,
        Flaw::OneTick,
        Flaw::EqualReceive,
        Flaw::IsNine,
        Flaw::IsSeven,
        Flaw::ManualToo,
        Flaw::ListsNoEmpty,
        Flaw::SecondEdition,
    ] {
        match seen(flaw) {
            Some(About::Claim(told)) => assert!(!told.is_empty()),
            other => panic!("{flaw:?}: {other:?}"),
        }
    }
}
