//! The program `earliest`, run on the oracle and on programs that are wrong.

use std::path::Path;
use std::process::{Command, Output};

use super::programs::{ORACLE, text, wrong_program};

fn run(arguments: &[&str]) -> Output {
    Command::new(env!("CARGO_BIN_EXE_earliest"))
        .args(arguments)
        .output()
        .unwrap()
}

fn earliest(program: &Path) -> Output {
    run(&["--program", program.to_str().unwrap(), "--dry-runs", "3000"])
}

#[test]
fn the_oracle_is_as_claimed() {
    let output = earliest(Path::new(ORACLE));
    let text = text(&output);
    assert!(output.status.success(), "{text}");
    let figure = text.lines().last().unwrap();
    let figure = figure.strip_prefix("checked ").unwrap();
    let count = figure.strip_suffix(" dry runs, 0 differences").unwrap();
    assert!(count.parse::<usize>().unwrap() >= 3_000, "{text}");
}

#[test]
fn a_difference_is_told_in_full() {
    let program = wrong_program("seven_as_eight", "ORACLE | sed 's/^07$/08/'");
    let output = earliest(&program);
    assert_eq!(output.status.code(), Some(1));
    let text = text(&output);
    let lines: Vec<&str> = text.lines().collect();
    let listed = lines.iter().position(|line| line.starts_with("listed ["));
    let listed = listed.unwrap_or_else(|| panic!("{text}"));
    assert!(lines[1].starts_with("02"), "{text}");
    assert_eq!(lines[listed - 2], "12");
    assert!(lines[listed - 1].starts_with("10"), "{text}");
    assert!(lines[listed + 1].starts_with("asked at "), "{text}");
    assert!(lines[listed + 2].starts_with("claimed 7"), "{text}");
    assert_eq!(lines[listed + 3], "answered 08");
    assert!(text.ends_with(" dry runs, 1 differences\n"), "{text}");
}

#[test]
fn what_cannot_be_checked_is_not_passed() {
    for (name, script, sign) in [
        (
            "earliest_stops",
            "ORACLE 2>/dev/null | head -n 100",
            "100 lines for",
        ),
        ("earliest_fails", "ORACLE; exit 3", "exit status: 3"),
        ("earliest_unended", "ORACLE | head -c -1", " lines for "),
        (
            "opens_nothing",
            "ORACLE | sed 's/^00$/03/'",
            "nothing could be checked",
        ),
        (
            "lists_nothing",
            "ORACLE | sed 's/^0001.*/0000/'",
            "expected a list",
        ),
    ] {
        let output = earliest(&wrong_program(name, script));
        assert_eq!(output.status.code(), Some(1), "{name}");
        assert!(text(&output).contains(sign), "{name}: {}", text(&output));
    }
}

#[test]
fn the_same_seed_gives_the_same_figures() {
    let seeded = |seed| {
        let output = run(&["--program", ORACLE, "--dry-runs", "500", "--seed", seed]);
        text(&output)
    };
    assert_eq!(seeded("7"), seeded("7"));
    assert_ne!(seeded("7"), seeded("8"));
}

#[test]
fn help_and_wrong_arguments() {
    assert!(text(&run(&["--help"])).contains("--dry-runs N"));
    for wrong in [
        &[][..],
        &["--dry-runs", "5"],
        &["--program", ORACLE, "--dry-runs", "x"],
        &["--program", ORACLE, "--seed"],
        &["-x", "1"],
        &["--program", "no/such/program"],
    ] {
        assert_eq!(run(wrong).status.code(), Some(2), "{wrong:?}");
    }
}
