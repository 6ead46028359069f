//! What is open, and the answer to each line: the original's, and under rule 2 of
//! document 02's R-4, which it does not have, a reading's.

use crate::frames::{
    self, Answer, Content, Dates, Frame, Load, PolyOpening, QueueOpening, RatedOpening, Request,
    Ruled,
};
use crate::refusal::Refusal;
use crate::rules;
use crate::{free, poly, priority, queue};

/// An open record of any manager. Each call holds document 01's order of
/// refusals from 2 on.
pub trait Record {
    fn dry_run(&self, request: Request) -> Result<Dates, Refusal>;
    fn book(&mut self, request: Request, stated: Dates) -> Result<(), Refusal>;
    fn list(&self) -> Result<Content, Refusal>;

    /// 12 on every manager without queues.
    fn enqueue(&mut self, _load: Load) -> Result<(), Refusal> {
        Err(Refusal::NotManual)
    }

    /// 12 on every manager without queues.
    fn dequeue(&mut self, _load: Load) -> Result<(), Refusal> {
        Err(Refusal::NotManual)
    }

    /// The sum of the listed free volumes (document 02, R-1). 12 where no
    /// volumes are listed.
    fn room(&self) -> Result<i64, Refusal> {
        Err(Refusal::NotManual)
    }
}

pub type Opened = Result<Box<dyn Record>, Refusal>;

/// How each manager is opened, under rule 1 where it looks up delays.
#[derive(Clone, Copy)]
pub struct Openings {
    pub free: fn(&RatedOpening) -> Opened,
    pub priority: fn(&RatedOpening) -> Opened,
    pub poly: fn(&PolyOpening) -> Opened,
    pub queue: fn(&QueueOpening) -> Opened,
}

impl Openings {
    /// The original's managers.
    pub const ORIGINAL: Openings = Openings {
        free: free::open,
        priority: priority::open,
        poly: poly::open,
        queue: queue::open,
    };

    fn ruled(&self, opening: &Ruled) -> Opened {
        match opening {
            Ruled::Free(opening) => (self.free)(opening),
            Ruled::Priority(opening) => (self.priority)(opening),
            Ruled::Poly(opening) => (self.poly)(opening),
        }
    }
}

/// Whose answer an answer is.
#[derive(Clone, Copy, Debug, PartialEq, Eq)]
pub enum By {
    /// The original, or what is opened in its place.
    Original,
    /// The reading of rule 2.
    Reading,
    /// No manager was asked: a line that is no frame, a rule that is none,
    /// nothing open.
    Nobody,
}

/// One open record or none, as the trace program holds it.
pub struct Oracle {
    openings: Openings,
    open: Option<Box<dyn Record>>,
    /// Whose record is open.
    of: By,
    answered: By,
}

impl Default for Oracle {
    fn default() -> Self {
        Self::with(Openings::ORIGINAL)
    }
}

impl Oracle {
    pub fn new() -> Self {
        Self::default()
    }

    /// The same frames over other managers. Rule 2 stays the reading's.
    pub fn with(openings: Openings) -> Self {
        Oracle {
            openings,
            open: None,
            of: By::Nobody,
            answered: By::Nobody,
        }
    }

    /// The answer to a line, both without their line ends.
    pub fn answer(&mut self, line: &[u8]) -> Vec<u8> {
        let mut answer = Vec::new();
        self.answer_into(line, &mut answer);
        answer
    }

    /// The same, appended.
    pub fn answer_into(&mut self, line: &[u8], answers: &mut Vec<u8>) {
        frames::encode_answer(&self.answer_line(line), answers);
    }

    pub fn answer_line(&mut self, line: &[u8]) -> Answer {
        self.answered = By::Nobody;
        let frame = frames::decode(line).ok_or(Refusal::Malformed)?;
        self.answer_frame(&frame)
    }

    /// Whose the last answer was.
    pub fn answered(&self) -> By {
        self.answered
    }

    /// After a fault the record is not to be trusted, and is closed.
    pub fn answer_frame(&mut self, frame: &Frame) -> Answer {
        self.answered = self.of;
        let answer = self.call(frame);
        if answer == Err(Refusal::Fault) {
            (self.open, self.of) = (None, By::Nobody);
        }
        answer
    }

    fn call(&mut self, frame: &Frame) -> Answer {
        match frame {
            Frame::OpenFree(opening) => self.put(By::Original, (self.openings.free)(opening)),
            Frame::OpenPriority(opening) => {
                self.put(By::Original, (self.openings.priority)(opening))
            }
            Frame::OpenPoly(opening) => self.put(By::Original, (self.openings.poly)(opening)),
            Frame::OpenQueue(opening) => self.put(By::Original, (self.openings.queue)(opening)),
            Frame::OpenRuled(opening, rule) => self.open_ruled(opening, *rule),
            Frame::DryRun(request) => self.dry_run(*request).map(Content::Offer),
            Frame::Book(request, stated) => done(self.record()?.book(*request, *stated)),
            Frame::List => self.record()?.list(),
            Frame::Enqueue(load) => done(self.record()?.enqueue(*load)),
            Frame::Dequeue(load) => done(self.record()?.dequeue(*load)),
            Frame::Room => self.record()?.room().map(Content::Room),
        }
    }

    /// The dry run alone: it changes nothing.
    pub fn dry_run(&self, request: Request) -> Result<Dates, Refusal> {
        match &self.open {
            Some(record) => record.dry_run(request),
            None => Err(Refusal::NothingOpen),
        }
    }

    /// "a rule byte other than 1 or 2 is 2, before all else".
    fn open_ruled(&mut self, opening: &Ruled, rule: u8) -> Answer {
        match u64::from(rule) {
            rules::EARLIER => self.put(By::Original, self.openings.ruled(opening)),
            rules::LATER => self.put(By::Reading, rules::records::open(opening)),
            _ => self.put(By::Nobody, Err(Refusal::Bundle)),
        }
    }

    /// A refused opening keeps the old record.
    pub fn put(&mut self, by: By, opened: Opened) -> Answer {
        self.answered = by;
        (self.open, self.of) = (Some(opened?), by);
        Ok(Content::Nothing)
    }

    fn record(&mut self) -> Result<&mut Box<dyn Record>, Refusal> {
        self.open.as_mut().ok_or(Refusal::NothingOpen)
    }
}

fn done(result: Result<(), Refusal>) -> Answer {
    result.map(|()| Content::Nothing)
}
