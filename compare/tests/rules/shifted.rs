//! The reading of rule 2 against the original: dates are whole ticks, so a boundary
//! belongs to what follows exactly if, under rule 1, it stands a tick earlier. What
//! the original answers with every inner boundary a tick earlier is rule 2.

use oracle::Oracle;
use oracle::frames::{self, Frame, Ruled, Span};
use oracle::generate::{Kind, Stream};
use oracle::state::By;

/// `RULE_FRAMES` asks for more.
const FRAMES: usize = 200_000;
const SEED: u64 = 45;

fn frames_asked() -> usize {
    match std::env::var("RULE_FRAMES") {
        Ok(asked) => asked.parse().expect("a number of frames"),
        Err(_) => FRAMES,
    }
}

/// The delays with every inner boundary a tick earlier. They are no list of the
/// free-volume and the priority manager where the first is then empty.
fn shifted(delays: &[Span]) -> Vec<Span> {
    let mut earlier = delays.to_vec();
    for delay in earlier.iter_mut().skip(1) {
        delay.start -= 1;
    }
    for delay in earlier.iter_mut().rev().skip(1) {
        delay.end -= 1;
    }
    earlier
}

/// The frame 01, 02 or 03 that stands for rule 2; `None` where there is none.
fn standing_for(opening: &Ruled) -> Option<Frame> {
    let mut opening = opening.clone();
    let (delays, may_be_empty) = match &mut opening {
        Ruled::Free(contact) | Ruled::Priority(contact) => (&mut contact.delays, false),
        Ruled::Poly(contact) => (&mut contact.delays, true),
    };
    *delays = shifted(delays);
    let is_empty = delays.iter().any(|delay| delay.start >= delay.end);
    (may_be_empty || !is_empty).then(|| opening.plain())
}

/// The same contact under rule 2 and, in the original, with earlier boundaries.
struct Pair {
    later: Oracle,
    original: Oracle,
    /// Whether both are open on the same contact.
    is_open: bool,
}

impl Pair {
    /// Whatever the rule byte was, the contact is opened under rule 2.
    fn open(&mut self, opening: &Ruled) {
        let ruled = Frame::OpenRuled(opening.clone(), 2);
        if self.later.answer_frame(&ruled).is_err() {
            return;
        }
        self.is_open = match standing_for(opening) {
            Some(frame) => self.original.answer_frame(&frame).is_ok(),
            None => false,
        };
    }

    /// Whether the frame could be compared.
    fn ask(&mut self, frame: &Frame) -> bool {
        if !self.is_open {
            return false;
        }
        let answer = self.later.answer_frame(frame);
        assert_eq!(self.later.answered(), By::Reading);
        assert_eq!(answer, self.original.answer_frame(frame), "{frame:?}");
        true
    }
}

#[test]
fn rule_2_is_the_original_with_boundaries_a_tick_earlier() {
    let mut stream = Stream::new(Kind::Rules, SEED);
    let mut pair = Pair {
        later: Oracle::new(),
        original: Oracle::new(),
        is_open: false,
    };
    let run = stream.run(frames_asked());
    let mut compared = 0;
    for frame in run.lines().filter_map(frames::decode) {
        match &frame {
            Frame::OpenRuled(opening, _) => pair.open(opening),
            frame if frame.is_opening() => {}
            frame => compared += usize::from(pair.ask(frame)),
        }
    }
    println!("{compared} of {} frames compared", run.count);
    assert!(2 * compared > run.count);
}
