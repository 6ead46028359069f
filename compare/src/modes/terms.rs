//! What is called, in readable form too.

use std::fmt;

use crate::frames::{Dates, PolyOpening, Request, Window};
use crate::trial::Spoken;
use crate::trial::choices::Chosen;
use crate::trial::words::{Asked, Sent, Spans};

/// The modes there are: the ported capacity, and the true integral.
pub const PORTED: u64 = 1;
pub const EXACT: u64 = 2;

pub fn is_mode(mode: u64) -> bool {
    mode == PORTED || mode == EXACT
}

#[derive(Clone, Debug, PartialEq, Eq)]
pub struct Opening {
    pub mode: u64,
    /// Of the delays.
    pub rule: u64,
    /// The flag.
    pub strict: u64,
    pub contact: PolyOpening,
}

impl Opening {
    pub fn of(chosen: Chosen, contact: PolyOpening) -> Self {
        Opening {
            mode: chosen.kind,
            rule: chosen.rule,
            strict: chosen.strict,
            contact,
        }
    }

    pub fn chosen(&self) -> Chosen {
        Chosen {
            kind: self.mode,
            rule: self.rule,
            strict: self.strict,
        }
    }
}

/// What can be written over a record's own.
#[derive(Clone, Copy, Debug, PartialEq, Eq)]
pub enum Field {
    Mode(u64),
    Rule(u64),
    Strict(u64),
    Offset(i64),
    /// By its power.
    Coefficient(usize, i64),
}

impl Field {
    pub fn write(self, opening: &mut Opening) {
        match self {
            Field::Mode(mode) => opening.mode = mode,
            Field::Rule(rule) => opening.rule = rule,
            Field::Strict(strict) => opening.strict = strict,
            Field::Offset(offset) => opening.contact.offset = offset,
            Field::Coefficient(power, number) => opening.contact.coefficients[power] = number,
        }
    }
}

#[derive(Clone, Debug, PartialEq, Eq)]
pub enum Call {
    Open(Opening),
    DryRun(Request),
    Book(Request, Dates),
    List,
    /// No call of document 01: the record that is open, with this written over
    /// its own.
    Write(Field),
}

#[derive(Clone, Debug, Default, PartialEq, Eq)]
pub struct Dialogue {
    pub calls: Vec<Call>,
}

impl Spoken for Dialogue {
    type Call = Call;
    const CLAIMED: &'static str = "R-6";

    fn manager(&self) -> String {
        "polynomial".into()
    }

    fn calls(&self) -> &Vec<Call> {
        &self.calls
    }

    fn calls_mut(&mut self) -> &mut Vec<Call> {
        &mut self.calls
    }
}

// ---------------------------------------------------------------------------
// In readable form

impl fmt::Display for Opening {
    fn fmt(&self, text: &mut fmt::Formatter) -> fmt::Result {
        let PolyOpening {
            window: Window { start, end },
            offset,
            coefficients: [c0, c1, c2, c3],
            delays,
        } = &self.contact;
        let (mode, rule, strict) = (self.mode, self.rule, self.strict);
        let delays = Spans(delays);
        write!(
            text,
            "mode {mode}, rule {rule}, strict {strict}, window [{start},{end}); \
             offset {offset}, coefficients {c0},{c1},{c2},{c3}; delays {delays}",
        )
    }
}

impl fmt::Display for Field {
    fn fmt(&self, text: &mut fmt::Formatter) -> fmt::Result {
        match self {
            Field::Mode(mode) => write!(text, "mode {mode}"),
            Field::Rule(rule) => write!(text, "rule {rule}"),
            Field::Strict(strict) => write!(text, "strict {strict}"),
            Field::Offset(offset) => write!(text, "offset {offset}"),
            Field::Coefficient(power, number) => write!(text, "coefficient {power}: {number}"),
        }
    }
}

impl fmt::Display for Call {
    fn fmt(&self, text: &mut fmt::Formatter) -> fmt::Result {
        match self {
            Call::Open(opening) => write!(text, "open {opening}"),
            Call::DryRun(request) => write!(text, "dry run {}", Asked(*request)),
            Call::Book(request, dates) => {
                write!(text, "book {}: {}", Asked(*request), Sent(*dates))
            }
            Call::List => write!(text, "list"),
            Call::Write(field) => write!(text, "written into the record: {field}"),
        }
    }
}
