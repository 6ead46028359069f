//! `compare --kind rules` on programs that are wrong in what they read.

use std::path::Path;
use std::process::{Command, Output};

use crate::programs::{ORACLE, text, wrong_program};

fn compare(program: &Path, more: &[&str]) -> Output {
    Command::new(env!("CARGO_BIN_EXE_compare"))
        .arg("--program")
        .arg(program)
        .args(["--frames", "20000", "--kind", "rules"])
        .args(more)
        .output()
        .unwrap()
}

#[test]
fn the_last_lines_say_whose_answers_they_were() {
    let output = compare(Path::new(ORACLE), &["--seed", "5"]);
    assert!(output.status.success());
    let text = text(&output);
    let lines: Vec<&str> = text.lines().collect();
    assert_eq!(lines.len(), 3, "{text}");
    assert!(lines[0].ends_with(" frames 15"), "{text}");
    let by = lines[1].strip_prefix("of them ").unwrap();
    let (reading, original) = by
        .split_once(" frames answered by the reading of rule 2, ")
        .unwrap();
    let original = original.strip_suffix(" by the original").unwrap();
    assert!(reading.parse::<usize>().unwrap() > 8_000, "{text}");
    assert!(original.parse::<usize>().unwrap() > 5_000, "{text}");
    assert!(lines[2].ends_with(" frames, 0 differences"), "{text}");
}

/// Rule 2 read as rule 1: what is left is an opening and a call, or an opening.
#[test]
fn a_program_without_rule_2_is_seen() {
    let script = r"sed 's/^\(2[123].*\)02$/\101/' | ORACLE";
    let output = compare(&wrong_program("rule_1_alone", script), &[]);
    assert_eq!(output.status.code(), Some(1));
    let text = text(&output);
    let lines: Vec<&str> = text.lines().collect();
    assert!(
        lines[1].starts_with('2') && lines[1].ends_with("02"),
        "{text}"
    );
    assert!((7..=8).contains(&lines.len()), "{text}");
}

#[test]
fn programs_that_read_the_frames_otherwise_are_seen() {
    for (name, script) in [
        ("unknown_frames", "sed 's/^2[123].*/ff/' | ORACLE"),
        ("rule_3_is_2", r"sed 's/^\(2[123].*\)03$/\102/' | ORACLE"),
        ("rule_0_is_1", r"sed 's/^\(2[123].*\)00$/\101/' | ORACLE"),
        ("no_rule_is_ff", "ORACLE | sed 's/^02$/ff/'"),
        ("gap_is_11", "ORACLE | sed 's/^05$/0b/'"),
    ] {
        for seed in ["1", "2"] {
            let output = compare(&wrong_program(name, script), &["--seed", seed]);
            assert_eq!(output.status.code(), Some(1), "{name}: {}", text(&output));
        }
    }
}
