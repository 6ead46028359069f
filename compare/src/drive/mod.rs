//! The comparison: the same frames to another program and to the oracle.

pub mod differ;
pub mod program;
pub mod shrink;

use std::fs::File;
use std::io::{self, Write};
use std::path::{Path, PathBuf};
use std::sync::Arc;
use std::sync::mpsc::{self, Receiver};
use std::thread;
use std::time::{Duration, Instant};

use crate::generate::sink::Run;
use crate::generate::{Kind, Stream};
use differ::Difference;
use program::{End, Program};
use shrink::Lines;

/// Frames of one run of the program. The first run is short, so that what is
/// wrong everywhere is told soon.
const FIRST_FRAMES: usize = 5_000;
const FRAMES: usize = 200_000;
const BETWEEN_REPORTS: Duration = Duration::from_secs(5);

pub struct Settings {
    /// Without a program the frames are only written.
    pub program: Option<PathBuf>,
    pub frames: usize,
    pub seed: u64,
    pub kind: Kind,
    pub dump: Option<PathBuf>,
}

pub struct Outcome {
    pub compared: usize,
    /// How many of them are frame 15. The original has no such figure, so these
    /// are no part of the comparison with the original itself.
    pub rooms: usize,
    /// How many the reading of rule 2 has answered: no part of it either.
    pub by_reading: usize,
    pub by_original: usize,
    pub differences: usize,
    pub found: Option<Found>,
    /// How the program ended where it did not end well.
    pub bad_end: Option<End>,
}

impl Outcome {
    fn count(&mut self, run: &Run) {
        self.compared += run.count;
        self.rooms += run.rooms;
        self.by_reading += run.by_reading;
        self.by_original += run.by_original;
    }
}

/// A difference, and the shortest run found that shows it.
pub struct Found {
    pub frame: Vec<u8>,
    pub difference: Difference,
    /// `None`: not shown when the program is run afresh.
    pub shortest: Option<(Lines, Difference)>,
}

pub fn compare(settings: &Settings) -> io::Result<Outcome> {
    let program = settings.program.clone().map(|path| Program { path });
    let mut outcome = Outcome {
        compared: 0,
        rooms: 0,
        by_reading: 0,
        by_original: 0,
        differences: 0,
        found: None,
        bad_end: None,
    };
    let mut progress = Progress::new("frames", settings.frames);
    for run in generate_beside(settings) {
        if let Some(path) = &settings.dump {
            dump(path, &run)?;
        }
        outcome.count(&run);
        if let Some(program) = &program {
            compare_run(program, run, &mut outcome)?;
        }
        if outcome.found.is_some() || outcome.bad_end.is_some() {
            break;
        }
        progress.report(outcome.compared);
    }
    Ok(outcome)
}

/// Makes the next run while the program is busy with the last one.
fn generate_beside(settings: &Settings) -> Receiver<Run> {
    let (sender, runs) = mpsc::sync_channel(1);
    let mut stream = Stream::new(settings.kind, settings.seed);
    let sizes = run_sizes(settings);
    thread::spawn(move || {
        for size in sizes {
            if sender.send(stream.run(size)).is_err() {
                return;
            }
        }
    });
    runs
}

/// Each run begins with nothing open, so what is written to one file must be
/// one run.
fn run_sizes(settings: &Settings) -> Vec<usize> {
    if settings.dump.is_some() {
        return vec![settings.frames];
    }
    let mut sizes = vec![settings.frames.min(FIRST_FRAMES)];
    let mut left = settings.frames - sizes[0];
    while left > 0 {
        sizes.push(left.min(FRAMES));
        left -= left.min(FRAMES);
    }
    sizes
}

fn dump(path: &Path, run: &Run) -> io::Result<()> {
    let mut answers = path.as_os_str().to_owned();
    answers.push(".answers");
    File::create(path)?.write_all(&run.frames)?;
    File::create(answers)?.write_all(&run.answers)
}

fn compare_run(program: &Program, run: Run, outcome: &mut Outcome) -> io::Result<()> {
    let frames = Arc::new(run.frames);
    let theirs = program.run(frames.clone())?;
    if !theirs.end.is_good() {
        outcome.bad_end = Some(theirs.end);
    }
    let Some(difference) = differ::first(&run.answers, &theirs.answers) else {
        return Ok(());
    };
    outcome.differences = differ::count(&run.answers, &theirs.answers);
    let lines = shrink::until(&frames, difference.place);
    outcome.found = Some(Found {
        frame: lines.last().cloned().unwrap_or_default(),
        shortest: shortest(program, &lines, &run.answers)?,
        difference,
    });
    Ok(())
}

/// An answer should rest on the frames since the last opening alone; where it
/// does not, the whole run is tried.
fn shortest(
    program: &Program,
    lines: &Lines,
    answers: &[u8],
) -> io::Result<Option<(Lines, Difference)>> {
    match shrink::shrink(program, shrink::since_opening(lines, answers))? {
        None => shrink::shrink(program, lines.clone()),
        found => Ok(found),
    }
}

/// Says now and then how far it is, on standard error.
pub struct Progress {
    what: &'static str,
    all: usize,
    started: Instant,
    last: Instant,
}

impl Progress {
    pub fn new(what: &'static str, all: usize) -> Self {
        let now = Instant::now();
        Progress {
            what,
            all,
            started: now,
            last: now,
        }
    }

    pub fn report(&mut self, done: usize) {
        if self.last.elapsed() < BETWEEN_REPORTS {
            return;
        }
        self.last = Instant::now();
        let speed = done as f64 / self.started.elapsed().as_secs_f64();
        let Progress { what, all, .. } = self;
        eprintln!("{done} of {all} {what}, {speed:.0} a second");
    }
}
