//! Frames with their expected answers, in the order in which they are fed.

use crate::Oracle;
use crate::frames::{self, Answer, Content, Dates, Frame, Request, Span};
use crate::refusal::Refusal;
use crate::state::By;

/// One run of a program: its frames and the answers that are expected, each
/// line with its line end.
#[derive(Default)]
pub struct Run {
    pub frames: Vec<u8>,
    pub answers: Vec<u8>,
    pub count: usize,
    /// How many of them are frame 15, to which the original has no answer of
    /// its own.
    pub rooms: usize,
    /// How many the reading of rule 2 has answered, and how many the original.
    pub by_reading: usize,
    pub by_original: usize,
}

impl Run {
    /// The frames without their line ends.
    pub fn lines(&self) -> impl Iterator<Item = &[u8]> {
        let lines = self.frames.split_inclusive(|byte| *byte == b'\n');
        lines.map(|line| line.strip_suffix(b"\n").unwrap_or(line))
    }
}

/// A run in the making: it begins with nothing open.
#[derive(Default)]
pub struct Sink {
    oracle: Oracle,
    run: Run,
    /// Whether frame 15 is asked after every other line.
    asks_room: bool,
}

impl Sink {
    pub fn new() -> Self {
        Self::default()
    }

    /// A run that asks frame 15 after every other line, so that each change of
    /// the figure is seen at once, also one that should not be.
    pub fn asking_room() -> Self {
        Sink {
            asks_room: true,
            ..Self::default()
        }
    }

    pub fn count(&self) -> usize {
        self.run.count
    }

    pub fn finish(self) -> Run {
        self.run
    }

    pub fn ask(&mut self, frame: &Frame) -> Answer {
        self.line(&frame.encode())
    }

    /// A line as it stands, right or malformed.
    pub fn line(&mut self, line: &[u8]) -> Answer {
        let answer = self.add(line);
        if self.asks_room && !is_room(line) {
            let _ = self.add(&Frame::Room.encode());
        }
        answer
    }

    fn add(&mut self, line: &[u8]) -> Answer {
        assert!(!line.contains(&b'\n'), "a line end inside a line");
        let answer = self.oracle.answer_line(line);
        self.run.frames.extend_from_slice(line);
        self.run.frames.push(b'\n');
        frames::encode_answer(&answer, &mut self.run.answers);
        self.run.answers.push(b'\n');
        self.run.count += 1;
        self.run.rooms += usize::from(is_room(line));
        match self.oracle.answered() {
            By::Reading => self.run.by_reading += 1,
            By::Original => self.run.by_original += 1,
            By::Nobody => {}
        }
        answer
    }

    /// What a dry run would answer, without a frame.
    pub fn look(&self, request: Request) -> Result<Dates, Refusal> {
        self.oracle.dry_run(request)
    }

    /// What is listed, without a frame; nothing for queues.
    pub fn listed(&mut self) -> Vec<Span> {
        match self.oracle.answer_frame(&Frame::List) {
            Ok(Content::Segments(spans)) => spans,
            _ => Vec::new(),
        }
    }
}

fn is_room(line: &[u8]) -> bool {
    line == Frame::Room.encode()
}
