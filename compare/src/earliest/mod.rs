//! Document 02's R-8 held against another program's answers: on a priority
//! record without an empty segment each dry run is offered the earliest place.
//!
//! The claim itself is in [`claim`]; [`watch`] knows to which answers it
//! applies and what the program listed just before them.

pub mod claim;
pub mod figures;
pub mod watch;

use std::io;
use std::path::PathBuf;
use std::sync::Arc;

use crate::drive::Progress;
use crate::drive::program::{End, Program};
use crate::frames::{self, Frame};
use crate::generate::sink::Run;
use crate::generate::{Kind, Stream};
use figures::Figures;
use watch::{Difference, Watch};

/// Frames of one run of the program, at most about, and of the shortest one.
const FRAMES: usize = 200_000;
const FEWEST_FRAMES: usize = 4_000;
/// About one frame in so many is a dry run that is checked.
const FRAMES_A_CHECK: usize = 4;

pub struct Settings {
    pub program: PathBuf,
    /// At least so many are checked.
    pub dry_runs: usize,
    pub seed: u64,
}

pub struct Outcome {
    pub figures: Figures,
    /// Why fewer than enough were checked.
    pub stop: Option<Stop>,
}

pub enum Stop {
    Difference(Difference),
    BadEnd(End),
    Lines {
        asked: usize,
        written: usize,
    },
    /// Further runs would not come to an end either.
    NothingChecked,
}

/// Runs the program until enough dry runs have been checked.
pub fn check(settings: &Settings) -> io::Result<Outcome> {
    let program = Program {
        path: settings.program.clone(),
    };
    let mut runs = Runs::new(settings.seed);
    let mut watch = Watch::new();
    let mut progress = Progress::new("dry runs", settings.dry_runs);
    let mut stop = None;
    while stop.is_none() && watch.figures.checked < settings.dry_runs {
        let left = settings.dry_runs - watch.figures.checked;
        let frames = left.saturating_mul(FRAMES_A_CHECK);
        let run = runs.next(frames.clamp(FEWEST_FRAMES, FRAMES));
        stop = check_run(&program, run, &mut watch)?;
        progress.report(watch.figures.checked);
    }
    Ok(Outcome {
        figures: watch.figures,
        stop,
    })
}

fn check_run(program: &Program, frames: Vec<u8>, watch: &mut Watch) -> io::Result<Option<Stop>> {
    let frames = Arc::new(frames);
    let before = watch.figures.checked;
    let output = program.run(frames.clone())?;
    if let Some(difference) = watch.see_run(&frames, &output.answers) {
        return Ok(Some(Stop::Difference(difference)));
    }
    if !output.end.is_good() {
        return Ok(Some(Stop::BadEnd(output.end)));
    }
    let (asked, written) = (line_ends(&frames), line_ends(&output.answers));
    if asked != written {
        return Ok(Some(Stop::Lines { asked, written }));
    }
    Ok((watch.figures.checked == before).then_some(Stop::NothingChecked))
}

fn line_ends(text: &[u8]) -> usize {
    text.iter().filter(|byte| **byte == b'\n').count()
}

/// The frames of one seed in runs, each of which begins with nothing open. Two
/// streams take turns: the priority manager's, in which sends of zero length
/// are booked, and one in which they are not.
pub struct Runs {
    streams: [Stream; 2],
    turn: usize,
}

impl Runs {
    pub fn new(seed: u64) -> Self {
        Runs {
            streams: [Kind::Priority, Kind::Filled].map(|kind| Stream::new(kind, seed)),
            turn: 0,
        }
    }

    /// Half as many frames or more, and with the lists about so many at most.
    pub fn next(&mut self, frames: usize) -> Vec<u8> {
        let stream = &mut self.streams[self.turn];
        self.turn = 1 - self.turn;
        with_lists(&stream.run(frames / 2))
    }
}

/// The frames of a run with frame 12 right before each dry run.
fn with_lists(run: &Run) -> Vec<u8> {
    let list = Frame::List.encode();
    let mut frames = Vec::new();
    for line in run.lines() {
        if let Some(Frame::DryRun(_)) = frames::decode(line) {
            frames.extend_from_slice(&list);
            frames.push(b'\n');
        }
        frames.extend_from_slice(line);
        frames.push(b'\n');
    }
    frames
}
