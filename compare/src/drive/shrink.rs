//! The shortest run of frames found that still shows a difference.

use std::io;
use std::sync::Arc;
use std::time::{Duration, Instant};

use super::differ::{self, Difference};
use super::program::Program;
use crate::generate::sink::Sink;

/// Shrinking ends after so long with what it has.
const PATIENCE: Duration = Duration::from_secs(60);

pub type Lines = Vec<Vec<u8>>;

/// All frames up to the one at `place`.
pub fn until(frames: &[u8], place: usize) -> Lines {
    differ::lines(frames)
        .take(place + 1)
        .map(|line| differ::bare(line).to_vec())
        .collect()
}

/// The frames on which the answer to the last one should rest: those from the
/// last opening before it that was accepted.
pub fn since_opening(lines: &[Vec<u8>], answers: &[u8]) -> Lines {
    let before = lines.len().saturating_sub(1);
    let answers: Vec<&[u8]> = differ::lines(answers).take(before).collect();
    let opened = (0..answers.len())
        .rev()
        .find(|at| is_opening(&lines[*at]) && answers[*at] == b"00\n");
    lines[opened.unwrap_or(0)..].to_vec()
}

fn is_opening(line: &[u8]) -> bool {
    let kinds: [&[u8]; 7] = [b"01", b"02", b"03", b"04", b"21", b"22", b"23"];
    line.get(..2).is_some_and(|kind| kinds.contains(&kind))
}

/// Runs the program and the oracle afresh; the first difference, if any.
pub fn show(program: &Program, lines: &[Vec<u8>]) -> io::Result<Option<Difference>> {
    let mut sink = Sink::new();
    for line in lines {
        let _ = sink.line(line);
    }
    let expected = sink.finish();
    let theirs = program.run(Arc::new(expected.frames))?;
    Ok(differ::first(&expected.answers, &theirs.answers))
}

/// Drops frames, large parts first, as long as a difference is still shown.
/// The first frame, the opening, is tried last. `None` if the program answers
/// as expected when it is run afresh.
pub fn shrink(program: &Program, lines: Lines) -> io::Result<Option<(Lines, Difference)>> {
    let Some(difference) = show(program, &lines)? else {
        return Ok(None);
    };
    let mut found = cut_after(lines, difference);
    let until = Instant::now() + PATIENCE;
    let mut part = found.0.len() / 2;
    while part > 0 {
        let mut at = 1;
        while at + 1 < found.0.len() && Instant::now() < until {
            match show_without(program, &found.0, at, part)? {
                Some(shorter) => found = shorter,
                None => at += part,
            }
        }
        part /= 2;
    }
    if found.0.len() > 1
        && let Some(shorter) = show_without(program, &found.0, 0, 1)?
    {
        found = shorter;
    }
    Ok(Some(found))
}

/// What comes after the difference does not matter.
fn cut_after(mut lines: Lines, difference: Difference) -> (Lines, Difference) {
    lines.truncate(difference.place + 1);
    (lines, difference)
}

/// The run without `part` frames from `at` on, the last frame kept.
fn show_without(
    program: &Program,
    lines: &[Vec<u8>],
    at: usize,
    part: usize,
) -> io::Result<Option<(Lines, Difference)>> {
    let end = (at + part).min(lines.len() - 1);
    let rest = [&lines[..at], &lines[end..]].concat();
    let shown = show(program, &rest)?;
    Ok(shown.map(|difference| cut_after(rest, difference)))
}
