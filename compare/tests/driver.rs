//! The program `compare`, run on the oracle and on programs that are wrong.

mod programs;

use std::fs;
use std::path::Path;
use std::process::{Command, Output};

use programs::{ORACLE, text, wrong_program};

fn compare(program: &Path, more: &[&str]) -> Output {
    Command::new(env!("CARGO_BIN_EXE_compare"))
        .arg("--program")
        .arg(program)
        .args(["--frames", "6000"])
        .args(more)
        .output()
        .unwrap()
}

#[test]
fn the_oracle_does_not_differ_from_itself() {
    for kind in [
        "free",
        "priority",
        "poly",
        "queue",
        "malformed",
        "room",
        "filled",
        "rules",
        "all",
    ] {
        let output = compare(Path::new(ORACLE), &["--kind", kind, "--seed", "7"]);
        assert!(output.status.success(), "{kind}: {}", text(&output));
        let text = text(&output);
        let figure = text
            .lines()
            .last()
            .and_then(|line| line.strip_prefix("compared "));
        let count = figure.and_then(|line| line.strip_suffix(" frames, 0 differences"));
        assert!(count.unwrap().parse::<usize>().unwrap() >= 6000, "{text}");
    }
}

#[test]
fn a_difference_is_shrunk_to_an_opening_and_a_dry_run() {
    let program = wrong_program("eight_as_seven", "ORACLE | sed 's/^08$/07/'");
    let output = compare(&program, &["--kind", "poly"]);
    assert_eq!(output.status.code(), Some(1));
    let text = text(&output);
    let lines: Vec<&str> = text.lines().collect();
    assert_eq!(lines.len(), 7, "{text}");
    assert!(lines[1].starts_with("03"), "{text}");
    assert!(lines[2].starts_with("10"), "{text}");
    assert_eq!(lines[3..5], ["expected 08", "answered 07"]);
    assert!(lines[5].starts_with("of them "), "{text}");
    assert!(lines[6].starts_with("compared "), "{text}");
}

/// Only frame 15's answers have 18 digits. Those that end in 0 are answered one
/// too high.
#[test]
fn a_wrong_room_is_shrunk_to_an_opening_and_frame_15() {
    let one_more = r"ORACLE | sed 's/^\(00[0-9a-f]\{15\}\)0$/\11/'";
    let program = wrong_program("room_one_more", one_more);
    for kind in ["room", "free"] {
        let output = compare(&program, &["--kind", kind]);
        assert_eq!(output.status.code(), Some(1));
        let text = text(&output);
        let lines: Vec<&str> = text.lines().collect();
        assert_eq!(lines.len(), 7, "{text}");
        assert!(lines[1].starts_with("01"), "{text}");
        assert_eq!(lines[2], "15");
        let expected = lines[3].strip_prefix("expected ").map(room);
        let answered = lines[4].strip_prefix("answered ").map(room);
        assert_eq!(expected.unwrap() + 1, answered.unwrap(), "{text}");
    }
}

fn room(answer: &str) -> i64 {
    assert_eq!(answer.len(), 18, "{answer}");
    i64::from_str_radix(answer, 16).unwrap()
}

#[test]
fn frames_15_are_counted_before_the_figure() {
    let frames = Path::new(env!("CARGO_TARGET_TMPDIR")).join("rooms");
    let dump = ["--kind", "room", "--dump", frames.to_str().unwrap()];
    let output = compare(Path::new(ORACLE), &dump);
    let asked = fs::read(&frames).unwrap();
    let lines = asked.split_inclusive(|byte| *byte == b'\n');
    let all = lines.clone().count();
    let rooms = lines.filter(|line| *line == b"15\n").count();
    assert!(10 * rooms > 4 * all, "{rooms} of {all}");
    let expected = format!("of them {rooms} frames 15\ncompared {all} frames, 0 differences\n");
    assert_eq!(text(&output), expected);
}

#[test]
fn missing_lines_and_bad_ends_are_seen() {
    for (name, script, sign) in [
        ("stops", "ORACLE 2>/dev/null | head -n 100", "(no line)"),
        ("fails", "ORACLE; exit 3", "exit status: 3"),
        ("unended", "ORACLE | head -c -1", "(without a line end)"),
    ] {
        let output = compare(&wrong_program(name, script), &[]);
        assert_eq!(output.status.code(), Some(1), "{name}");
        assert!(text(&output).contains(sign), "{name}: {}", text(&output));
    }
}

#[test]
fn the_written_frames_are_one_run() {
    let frames = Path::new(env!("CARGO_TARGET_TMPDIR")).join("frames");
    let output = compare(Path::new(ORACLE), &["--dump", frames.to_str().unwrap()]);
    assert!(output.status.success());
    let output = Command::new(ORACLE)
        .stdin(fs::File::open(&frames).unwrap())
        .output()
        .unwrap();
    let answers = fs::read(frames.with_extension("answers")).unwrap();
    assert!(output.stdout == answers);
}

#[test]
fn a_last_line_without_a_line_end_is_a_frame() {
    let path = Path::new(env!("CARGO_TARGET_TMPDIR")).join("open_line");
    fs::write(&path, "12\n\n12").unwrap();
    let output = Command::new(ORACLE)
        .stdin(fs::File::open(&path).unwrap())
        .output()
        .unwrap();
    assert_eq!(text(&output), "01\nff\n01\n");
}

#[test]
fn help_and_wrong_arguments() {
    let run = |arguments: &[&str]| {
        Command::new(env!("CARGO_BIN_EXE_compare"))
            .args(arguments)
            .output()
            .unwrap()
    };
    assert!(text(&run(&["--help"])).contains("--make-list DIR"));
    for wrong in [
        &[][..],
        &["--frames", "x"],
        &["--kind", "none"],
        &["--seed"],
        &["-x", "1"],
    ] {
        assert_eq!(run(wrong).status.code(), Some(2), "{wrong:?}");
    }
}
