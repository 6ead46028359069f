//! What is called, of any of the four managers, in readable form too.

use std::fmt;

use super::queues::terms as queues;
use crate::editions::terms as rated;
use crate::frames::{Dates, Load, Request, Window};
use crate::modes::terms as poly;
use crate::trial::Spoken;
use crate::trial::choices::Chosen;
use crate::trial::words::{Asked, Sent};

#[derive(Clone, Copy, Debug, PartialEq, Eq, PartialOrd, Ord)]
pub enum Manager {
    Free,
    Priority,
    Poly,
    Queue,
}

impl Manager {
    pub const ALL: [Manager; 4] = [
        Manager::Free,
        Manager::Priority,
        Manager::Poly,
        Manager::Queue,
    ];

    /// Which of the two it is whose records name an edition.
    pub fn rated(self) -> Option<rated::Manager> {
        match self {
            Manager::Free => Some(rated::Manager::Free),
            Manager::Priority => Some(rated::Manager::Priority),
            _ => None,
        }
    }
}

/// Of the manager that is called.
#[derive(Clone, Debug, PartialEq, Eq)]
pub enum Opening {
    Rated(rated::Opening),
    Poly(poly::Opening),
    Queue(queues::Opening),
}

impl Opening {
    pub fn strict(&self) -> u64 {
        self.chosen().strict
    }

    /// A queue opening chooses its flag alone.
    pub fn chosen(&self) -> Chosen {
        match self {
            Opening::Rated(opening) => opening.chosen(),
            Opening::Poly(opening) => opening.chosen(),
            Opening::Queue(opening) => Chosen {
                strict: opening.strict,
                ..Chosen::NOTHING
            },
        }
    }

    /// The same with this flag.
    pub fn with(&self, strict: u64) -> Opening {
        let mut other = self.clone();
        match &mut other {
            Opening::Rated(opening) => opening.strict = strict,
            Opening::Poly(opening) => opening.strict = strict,
            Opening::Queue(opening) => opening.strict = strict,
        }
        other
    }

    pub fn window(&self) -> Window {
        match self {
            Opening::Rated(opening) => opening.contact.window,
            Opening::Poly(opening) => opening.contact.window,
            Opening::Queue(opening) => opening.contact.window,
        }
    }
}

/// What can be written over a record's own, of the manager that is called.
#[derive(Clone, Copy, Debug, PartialEq, Eq)]
pub enum Field {
    Rated(rated::Field),
    Poly(poly::Field),
    Queue(queues::Field),
}

impl Field {
    /// The flag, as this manager's.
    pub fn flag(manager: Manager, strict: u64) -> Field {
        match manager {
            Manager::Free | Manager::Priority => Field::Rated(rated::Field::Strict(strict)),
            Manager::Poly => Field::Poly(poly::Field::Strict(strict)),
            Manager::Queue => Field::Queue(queues::Field::Strict(strict)),
        }
    }

    /// The flag that is written, if it is one.
    pub fn strict(self) -> Option<u64> {
        match self {
            Field::Rated(rated::Field::Strict(strict))
            | Field::Poly(poly::Field::Strict(strict))
            | Field::Queue(queues::Field::Strict(strict)) => Some(strict),
            _ => None,
        }
    }
}

#[derive(Clone, Debug, PartialEq, Eq)]
pub enum Call {
    Open(Opening),
    DryRun(Request),
    Book(Request, Dates),
    List,
    /// Asked of the free-volume manager alone.
    Room,
    /// These two are asked of the queue manager alone.
    Enqueue(Load),
    Dequeue(Load),
    /// No call of document 01: the record that is open, with this written over
    /// its own.
    Write(Field),
}

/// All calls of a dialogue are made to one manager.
#[derive(Clone, Debug, PartialEq, Eq)]
pub struct Dialogue {
    pub manager: Manager,
    pub calls: Vec<Call>,
}

impl Spoken for Dialogue {
    type Call = Call;
    const CLAIMED: &'static str = "R-7";

    fn manager(&self) -> String {
        self.manager.to_string()
    }

    fn calls(&self) -> &Vec<Call> {
        &self.calls
    }

    fn calls_mut(&mut self) -> &mut Vec<Call> {
        &mut self.calls
    }
}

// ---------------------------------------------------------------------------
// In readable form

impl fmt::Display for Manager {
    fn fmt(&self, text: &mut fmt::Formatter) -> fmt::Result {
        text.write_str(match self {
            Manager::Free => "free volume",
            Manager::Priority => "priority",
            Manager::Poly => "polynomial",
            Manager::Queue => "queue",
        })
    }
}

impl fmt::Display for Opening {
    fn fmt(&self, text: &mut fmt::Formatter) -> fmt::Result {
        match self {
            Opening::Rated(opening) => opening.fmt(text),
            Opening::Poly(opening) => opening.fmt(text),
            Opening::Queue(opening) => opening.fmt(text),
        }
    }
}

impl fmt::Display for Field {
    fn fmt(&self, text: &mut fmt::Formatter) -> fmt::Result {
        match self {
            Field::Rated(field) => field.fmt(text),
            Field::Poly(field) => field.fmt(text),
            Field::Queue(field) => field.fmt(text),
        }
    }
}

impl fmt::Display for Call {
    fn fmt(&self, text: &mut fmt::Formatter) -> fmt::Result {
        let queued = |load: &Load| format!("size {}, priority {}", load.size, load.priority);
        match self {
            Call::Open(opening) => write!(text, "open {opening}"),
            Call::DryRun(request) => write!(text, "dry run {}", Asked(*request)),
            Call::Book(request, dates) => {
                write!(text, "book {}: {}", Asked(*request), Sent(*dates))
            }
            Call::List => write!(text, "list"),
            Call::Room => write!(text, "room"),
            Call::Enqueue(load) => write!(text, "enqueue {}", queued(load)),
            Call::Dequeue(load) => write!(text, "dequeue {}", queued(load)),
            Call::Write(field) => write!(text, "written into the record: {field}"),
        }
    }
}
