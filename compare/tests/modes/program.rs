//! The program's arguments, report and exit status.

use oracle::modes::program::{Ended, run};
use oracle::modes::reading::Reading;

use super::wrong::{Flaw, Wrong};

fn arguments(words: &[&str]) -> Vec<String> {
    words.iter().map(|word| word.to_string()).collect()
}

fn right(words: &[&str]) -> Ended {
    run(&arguments(words), Reading::default)
}

#[test]
fn the_figure_is_the_last_line() {
    let ended = right(&["--calls", "3000", "--seed", "9"]);
    assert_eq!(ended.status, 0);
    let figure = ended.output.lines().last().unwrap();
    assert!(figure.starts_with("compared 3,"), "{figure}");
    assert!(figure.ends_with(" calls, 0 differences"));
    assert!(
        ended
            .output
            .contains("\nends in mode 2 with enough exact capacity: ")
    );
}

#[test]
fn a_difference_is_told_and_makes_the_status_1() {
    let ended = run(&arguments(&["--calls", "100000"]), || {
        Wrong::of(Flaw::PortedQuotients)
    });
    assert_eq!(ended.status, 1);
    let lines: Vec<&str> = ended.output.lines().collect();
    assert_eq!(
        lines[0],
        "a difference; the calls of the polynomial manager:"
    );
    assert!(lines[1].starts_with("  open mode 2, rule "), "{}", lines[1]);
    // What remains of a long dialogue is an opening and a call.
    assert!(lines[3].starts_with("expected "), "{}", ended.output);
    assert!(lines[4].starts_with("answered "), "{}", ended.output);
    assert!(ended.output.ends_with(" calls, 1 differences\n"));
}

#[test]
fn help_and_wrong_arguments() {
    let help = right(&["--help"]);
    assert!(help.status == 0 && help.output.contains("--calls N"));
    for wrong in [&["--calls"][..], &["--calls", "x"], &["-x", "1"]] {
        let ended = right(wrong);
        assert_eq!(ended.status, 2, "{wrong:?}");
        assert!(ended.output.is_empty() && ended.errors.ends_with("see modes --help\n"));
    }
}
