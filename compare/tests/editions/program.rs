//! The program's arguments, report and exit status.

use oracle::editions::program::{Ended, run};
use oracle::editions::reading::Reading;

use super::wrong::{Flaw, Wrong};

fn arguments(words: &[&str]) -> Vec<String> {
    words.iter().map(|word| word.to_string()).collect()
}

fn right(words: &[&str]) -> Ended {
    run(&arguments(words), Reading::of)
}

#[test]
fn the_figure_is_the_last_line() {
    let ended = right(&["--calls", "3000", "--seed", "9"]);
    assert_eq!(ended.status, 0);
    let figure = ended.output.lines().last().unwrap();
    assert!(figure.starts_with("compared 3,"), "{figure}");
    assert!(figure.ends_with(" of them under edition 2, 0 differences"));
}

#[test]
fn a_difference_is_told_and_makes_the_status_1() {
    let ended = run(&arguments(&["--calls", "100000"]), |manager| {
        Wrong::of(Flaw::RoundsDown, manager)
    });
    assert_eq!(ended.status, 1);
    let lines: Vec<&str> = ended.output.lines().collect();
    assert!(lines[0].starts_with("a difference; the calls of the "));
    assert!(lines[1].starts_with("  open edition 2, rule "));
    for sign in ["\nexpected 0", "\nanswered "] {
        assert!(ended.output.contains(sign), "{}", ended.output);
    }
    assert!(ended.output.ends_with(" under edition 2, 1 differences\n"));
}

/// What remains of a long dialogue is an opening and a call.
#[test]
fn the_dialogue_is_shortened() {
    let ended = run(&arguments(&["--calls", "100000"]), |manager| {
        Wrong::of(Flaw::RoundsDown, manager)
    });
    let mut lines = ended.output.lines();
    assert!(lines.nth(1).unwrap().starts_with("  open "));
    assert!(
        lines.nth(1).unwrap().starts_with("expected "),
        "{}",
        ended.output
    );
}

#[test]
fn help_and_wrong_arguments() {
    let help = right(&["--help"]);
    assert!(help.status == 0 && help.output.contains("--calls N"));
    for wrong in [&["--calls"][..], &["--calls", "x"], &["-x", "1"]] {
        let ended = right(wrong);
        assert_eq!(ended.status, 2, "{wrong:?}");
        assert!(ended.output.is_empty() && ended.errors.ends_with("--help\n"));
    }
}
