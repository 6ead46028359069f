//! The program's arguments, report and exit status.

use oracle::strict::program::{Ended, run};
use oracle::strict::reading::Reading;

use super::wrong::{Flaw, Wrong};

fn arguments(words: &[&str]) -> Vec<String> {
    words.iter().map(|word| word.to_string()).collect()
}

fn right(words: &[&str]) -> Ended {
    run(&arguments(words), Reading::of)
}

#[test]
fn the_figure_is_the_last_line() {
    let ended = right(&["--calls", "3000", "--seed", "9"]);
    assert_eq!(ended.status, 0);
    let figure = ended.output.lines().last().unwrap();
    assert!(figure.starts_with("compared 3,"), "{figure}");
    assert!(figure.ends_with(" of them strict, 0 differences"));
    for line in [
        "\nfree volume, strict, bookings: ",
        "\nqueue, flag off, dry runs: ",
        "\npriority, 17, the twin with the flag off: ",
        "\nbookings answered 17: ",
    ] {
        assert!(ended.output.contains(line), "{line}{}", ended.output);
    }
}

#[test]
fn a_difference_is_told_and_makes_the_status_1() {
    let ended = run(&arguments(&["--calls", "100000"]), |manager| {
        Wrong::of(Flaw::Ignored, manager)
    });
    assert_eq!(ended.status, 1);
    let lines: Vec<&str> = ended.output.lines().collect();
    assert!(lines[0].starts_with("a difference; the calls of the "));
    assert!(lines[1].starts_with("  open "), "{}", ended.output);
    assert!(lines[1].contains("strict 1, window ["), "{}", ended.output);
    // What remains of a long dialogue is an opening and a booking.
    assert!(lines[2].starts_with("  book "), "{}", ended.output);
    assert_eq!(&lines[3..5], ["expected 17", "answered 0"]);
    assert!(ended.output.ends_with(" of them strict, 1 differences\n"));
}

#[test]
fn help_and_wrong_arguments() {
    let help = right(&["--help"]);
    assert!(help.status == 0 && help.output.contains("--calls N"));
    for wrong in [&["--calls"][..], &["--calls", "x"], &["-x", "1"]] {
        let ended = right(wrong);
        assert_eq!(ended.status, 2, "{wrong:?}");
        assert!(ended.output.is_empty() && ended.errors.ends_with("see strict --help\n"));
    }
}
