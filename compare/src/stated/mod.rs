//! What document 01 and document 02's R-1 state, as frames with the answers they
//! give. The tests hold the oracle to these, and the stored list contains them.

pub mod cases;
pub mod limits;
pub mod lines;
pub mod openings;
pub mod orders;
pub mod refusals;
pub mod room;
pub mod rules;

use crate::frames::{
    self, Answer, BUDGETS, Content, Dates, Frame, Load, PolyOpening, QueueOpening, RatedOpening,
    Request, Span, Window,
};
use crate::refusal::Refusal;

/// One exchange. Each begins with nothing open.
pub struct Talk {
    pub about: String,
    pub steps: Vec<Step>,
}

pub struct Step {
    pub line: Vec<u8>,
    pub answer: Vec<u8>,
}

/// Everything, in the order of the stored list. Those that ask with nothing
/// open stand first, as the list is one run.
pub fn talks() -> Vec<Talk> {
    let mut talks = refusals::nothing_open();
    talks.extend(room::nothing_open());
    talks.extend(cases::talks());
    talks.extend(limits::talks());
    talks.extend(openings::talks());
    talks.extend(orders::talks());
    talks.extend(refusals::talks());
    talks.extend(room::talks());
    talks.extend(lines::talks());
    talks
}

impl Talk {
    pub fn about(about: impl Into<String>) -> Self {
        Talk {
            about: about.into(),
            steps: Vec::new(),
        }
    }

    pub fn line(mut self, line: &[u8], answer: &[u8]) -> Self {
        self.steps.push(Step {
            line: line.to_vec(),
            answer: answer.to_vec(),
        });
        self
    }

    fn frame(self, frame: &Frame, answer: Answer) -> Self {
        let mut digits = Vec::new();
        frames::encode_answer(&answer, &mut digits);
        self.line(&frame.encode(), &digits)
    }

    pub fn done(self, frame: Frame) -> Self {
        self.frame(&frame, Ok(Content::Nothing))
    }

    pub fn refused(self, frame: Frame, refusal: Refusal) -> Self {
        self.frame(&frame, Err(refusal))
    }

    pub fn offers(self, request: Request, dates: [i64; 4]) -> Self {
        self.frame(&Frame::DryRun(request), Ok(Content::Offer(Dates(dates))))
    }

    pub fn no_offer(self, request: Request) -> Self {
        self.refused(Frame::DryRun(request), Refusal::NoOffer)
    }

    pub fn refuses_booking(self, request: Request, dates: [i64; 4], refusal: Refusal) -> Self {
        self.refused(Frame::Book(request, Dates(dates)), refusal)
    }

    /// The offer, then its booking.
    pub fn books(self, request: Request, dates: [i64; 4]) -> Self {
        self.offers(request, dates)
            .done(Frame::Book(request, Dates(dates)))
    }

    pub fn lists(self, spans: &[(i64, i64, i64)]) -> Self {
        let spans = spans.iter().map(|span| span_of(*span)).collect();
        self.frame(&Frame::List, Ok(Content::Segments(spans)))
    }

    pub fn queues(self, queues: &[i64]) -> Self {
        self.frame(&Frame::List, Ok(Content::Queues(queues.to_vec())))
    }

    pub fn room(self, sum: i64) -> Self {
        self.frame(&Frame::Room, Ok(Content::Room(sum)))
    }
}

// ---------------------------------------------------------------------------
// Contact A, [0,10), rate 10, delay 3, and how frames are spelled here

pub const A_WINDOW: Window = Window { start: 0, end: 10 };
pub const A_RATE: i64 = 10;
pub const A_DELAY: i64 = 3;

/// A limit as document 01 writes it. The crate's own constants are not used
/// here, so that a wrong one is seen.
pub const fn two_to(power: u32) -> i64 {
    1 << power
}

pub fn span_of((start, end, value): (i64, i64, i64)) -> Span {
    Span { start, end, value }
}

pub fn spans_of<const N: usize>(spans: [(i64, i64, i64); N]) -> Vec<Span> {
    spans.map(span_of).to_vec()
}

pub fn request(time: i64, size: i64, priority: u8) -> Request {
    Request {
        time,
        load: load(size, priority),
    }
}

pub fn load(size: i64, priority: u8) -> Load {
    Load { size, priority }
}

/// One rate and one delay over the whole window.
pub fn plain(window: Window, rate: i64, delay: i64) -> RatedOpening {
    RatedOpening {
        window,
        rates: vec![span_of((window.start, window.end, rate))],
        delays: vec![span_of((window.start, window.end, delay))],
    }
}

pub fn contact_a() -> RatedOpening {
    plain(A_WINDOW, A_RATE, A_DELAY)
}

pub fn poly_a() -> PolyOpening {
    PolyOpening {
        window: A_WINDOW,
        offset: 0,
        coefficients: [A_RATE, 0, 0, 0],
        delays: spans_of([(0, 10, A_DELAY)]),
    }
}

pub fn queue_a(classes: u8, flags: u8) -> QueueOpening {
    QueueOpening {
        flags,
        classes,
        window: A_WINDOW,
        rate: A_RATE,
        delay: A_DELAY,
        budgets: [0; BUDGETS],
    }
}

/// The four managers over contact A, for what they all do alike.
pub fn all_over_a() -> [(&'static str, Frame); 4] {
    [
        ("free", Frame::OpenFree(contact_a())),
        ("priority", Frame::OpenPriority(contact_a())),
        ("polynomial", Frame::OpenPoly(poly_a())),
        ("queue", Frame::OpenQueue(queue_a(3, 0))),
    ]
}
