//! What is called, in readable form too.

use std::fmt;

use crate::frames::{Dates, RatedOpening, Request, Window};
use crate::trial::Spoken;
use crate::trial::choices::Chosen;
use crate::trial::words::{Asked, Sent, Spans};

/// The editions there are.
pub const FIRST: u64 = 1;
pub const SECOND: u64 = 2;

pub fn is_edition(edition: u64) -> bool {
    edition == FIRST || edition == SECOND
}

/// The managers whose records name their edition.
#[derive(Clone, Copy, Debug, PartialEq, Eq)]
pub enum Manager {
    Free,
    Priority,
}

#[derive(Clone, Debug, PartialEq, Eq)]
pub struct Opening {
    pub edition: u64,
    /// Of the delays.
    pub rule: u64,
    /// The flag.
    pub strict: u64,
    pub contact: RatedOpening,
}

impl Opening {
    pub fn of(chosen: Chosen, contact: RatedOpening) -> Self {
        Opening {
            edition: chosen.kind,
            rule: chosen.rule,
            strict: chosen.strict,
            contact,
        }
    }

    pub fn chosen(&self) -> Chosen {
        Chosen {
            kind: self.edition,
            rule: self.rule,
            strict: self.strict,
        }
    }
}

/// What can be written over a record's own.
#[derive(Clone, Copy, Debug, PartialEq, Eq)]
pub enum Field {
    Edition(u64),
    Rule(u64),
    Strict(u64),
}

#[derive(Clone, Debug, PartialEq, Eq)]
pub enum Call {
    Open(Opening),
    DryRun(Request),
    Book(Request, Dates),
    List,
    Room,
    /// No call of document 01: the record that is open, with this written over
    /// its own.
    Write(Field),
}

/// All calls of a dialogue are made to one manager.
#[derive(Clone, Debug, PartialEq, Eq)]
pub struct Dialogue {
    pub manager: Manager,
    pub calls: Vec<Call>,
}

impl Spoken for Dialogue {
    type Call = Call;
    const CLAIMED: &'static str = "demand 3";

    fn manager(&self) -> String {
        self.manager.to_string()
    }

    fn calls(&self) -> &Vec<Call> {
        &self.calls
    }

    fn calls_mut(&mut self) -> &mut Vec<Call> {
        &mut self.calls
    }
}

// ---------------------------------------------------------------------------
// In readable form

impl fmt::Display for Manager {
    fn fmt(&self, text: &mut fmt::Formatter) -> fmt::Result {
        text.write_str(match self {
            Manager::Free => "free volume",
            Manager::Priority => "priority",
        })
    }
}

impl fmt::Display for Opening {
    fn fmt(&self, text: &mut fmt::Formatter) -> fmt::Result {
        let Window { start, end } = self.contact.window;
        let (rates, delays) = (Spans(&self.contact.rates), Spans(&self.contact.delays));
        write!(
            text,
            "edition {}, rule {}, strict {}, window [{start},{end}); rates {rates}; delays {delays}",
            self.edition, self.rule, self.strict
        )
    }
}

impl fmt::Display for Field {
    fn fmt(&self, text: &mut fmt::Formatter) -> fmt::Result {
        match self {
            Field::Edition(edition) => write!(text, "edition {edition}"),
            Field::Rule(rule) => write!(text, "rule {rule}"),
            Field::Strict(strict) => write!(text, "strict {strict}"),
        }
    }
}

impl fmt::Display for Call {
    fn fmt(&self, text: &mut fmt::Formatter) -> fmt::Result {
        match self {
            Call::Open(opening) => write!(text, "open {opening}"),
            Call::DryRun(request) => write!(text, "dry run {}", Asked(*request)),
            Call::Book(request, dates) => {
                write!(text, "book {}: {}", Asked(*request), Sent(*dates))
            }
            Call::List => write!(text, "list"),
            Call::Room => write!(text, "room"),
            Call::Write(field) => write!(text, "written into the record: {field}"),
        }
    }
}
