//! What is answered, and what is not as it must be.

use std::fmt;

use super::words::{Sent, Spans};
use super::{Found, Spoken};
use crate::frames::{Dates, Span};

/// What a call answers: a number alone, or what goes with a 0.
#[derive(Clone, Debug, PartialEq, Eq)]
pub enum Said {
    Number(u8),
    Offer(Dates),
    Listed(Vec<Span>),
    /// Each class's queue.
    Queued(Vec<i64>),
    Room(i64),
}

impl Said {
    /// Of a call that answers with a number alone.
    pub fn done(result: Result<(), u8>) -> Said {
        Said::Number(result.err().unwrap_or(0))
    }

    /// Of a call that has more to say where it is not refused.
    pub fn with<T>(result: Result<T, u8>, say: impl Fn(T) -> Said) -> Said {
        match result {
            Ok(value) => say(value),
            Err(number) => Said::Number(number),
        }
    }

    pub fn number(&self) -> u8 {
        match self {
            Said::Number(number) => *number,
            _ => 0,
        }
    }
}

/// What is not as it must be, at a call of the dialogue.
#[derive(Clone, Debug, PartialEq, Eq)]
pub struct Difference<Call> {
    pub place: usize,
    pub about: About<Call>,
}

#[derive(Clone, Debug, PartialEq, Eq)]
pub enum About<Call> {
    Answer(Box<Answered<Call>>),
    /// The answer is as expected, and breaks what is claimed of all answers.
    Claim(String),
}

/// A call of the dialogue, or one that is made after a booking.
#[derive(Clone, Debug, PartialEq, Eq)]
pub struct Answered<Call> {
    pub call: Call,
    pub expected: Said,
    pub answered: Said,
}

/// The answer, if it is the expected one.
pub fn compared<Call: Clone>(
    call: &Call,
    expected: Said,
    answered: Said,
) -> Result<Said, About<Call>> {
    if expected == answered {
        return Ok(answered);
    }
    Err(About::Answer(Box::new(Answered {
        call: call.clone(),
        expected,
        answered,
    })))
}

// ---------------------------------------------------------------------------
// In readable form

impl fmt::Display for Said {
    fn fmt(&self, text: &mut fmt::Formatter) -> fmt::Result {
        match self {
            Said::Number(number) => write!(text, "{number}"),
            Said::Offer(dates) => write!(text, "0, {}", Sent(*dates)),
            Said::Listed(listed) => write!(text, "0, {}", Spans(listed)),
            Said::Queued(queues) => write!(text, "0, queues {queues:?}"),
            Said::Room(room) => write!(text, "0, room {room}"),
        }
    }
}

impl<D: Spoken> fmt::Display for Found<D> {
    fn fmt(&self, text: &mut fmt::Formatter) -> fmt::Result {
        let manager = self.dialogue.manager();
        writeln!(text, "a difference; the calls of the {manager} manager:")?;
        for call in self.dialogue.calls() {
            writeln!(text, "  {call}")?;
        }
        match &self.difference.about {
            About::Answer(answered) => self.fmt_answer(answered, text),
            About::Claim(broken) => writeln!(text, "{}: {broken}", D::CLAIMED),
        }
    }
}

impl<D: Spoken> Found<D> {
    fn fmt_answer(&self, about: &Answered<D::Call>, text: &mut fmt::Formatter) -> fmt::Result {
        let Answered {
            call,
            expected,
            answered,
        } = about;
        // The list or the room is asked after a booking.
        if self.dialogue.calls().last() != Some(call) {
            writeln!(text, "  {call}")?;
        }
        writeln!(text, "expected {expected}\nanswered {answered}")
    }
}
