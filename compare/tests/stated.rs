//! The oracle answers what document 01 and document 02's state.

use oracle::Oracle;
use oracle::stated::{self, Talk, cases, limits, lines, openings, orders, refusals, room, rules};

/// Runs each exchange on a fresh oracle and compares every line.
fn hold(talks: Vec<Talk>) {
    assert!(!talks.is_empty());
    for talk in talks {
        let mut oracle = Oracle::new();
        assert!(!talk.steps.is_empty(), "{}", talk.about);
        for (place, step) in talk.steps.iter().enumerate() {
            let answer = oracle.answer(&step.line);
            assert_eq!(
                String::from_utf8_lossy(&answer),
                String::from_utf8_lossy(&step.answer),
                "{}, step {}: {}",
                talk.about,
                place + 1,
                String::from_utf8_lossy(&step.line)
            );
        }
    }
}

#[test]
fn the_example() {
    hold(vec![cases::example()]);
}

#[test]
fn the_eleven_cases() {
    hold(cases::eleven());
}

#[test]
fn run_as_tests_and_the_other_limits() {
    hold(limits::talks());
}

#[test]
fn openings_one_fault_at_a_time() {
    hold(openings::talks());
}

#[test]
fn the_first_of_several_faults() {
    hold(orders::talks());
}

#[test]
fn refusals_of_calls() {
    hold(refusals::nothing_open());
    hold(refusals::talks());
}

#[test]
fn delay_rules() {
    hold(rules::talks());
}

#[test]
fn the_room() {
    hold(room::nothing_open());
    hold(room::talks());
}

#[test]
fn lines_that_are_no_frames() {
    hold(lines::talks());
}

/// Every number of document 01 is among the stated answers, 13 and ff too.
#[test]
fn every_number_is_stated() {
    let talks = stated::talks();
    let numbers: Vec<&[u8]> = talks
        .iter()
        .flat_map(|talk| &talk.steps)
        .map(|step| &step.answer[..2])
        .collect();
    for number in (0..=14).chain([255]) {
        let digits = format!("{number:02x}");
        assert!(numbers.contains(&digits.as_bytes()), "{digits}");
    }
}

/// The check itself can fail: one wrong digit in a stated answer is seen.
#[test]
#[should_panic(expected = "case 1")]
fn a_wrong_statement_is_seen() {
    let mut talks = cases::eleven();
    let last = talks[0].steps.last_mut().expect("a list");
    *last.answer.last_mut().expect("a digit") = b'd';
    hold(talks);
}
