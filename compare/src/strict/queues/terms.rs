//! What the queue manager is opened with, and what can be written into its record.

use std::fmt;

use crate::frames::{QueueOpening, Window};

#[derive(Clone, Debug, PartialEq, Eq)]
pub struct Opening {
    pub strict: u64,
    pub contact: QueueOpening,
}

/// What can be written over a record's own.
#[derive(Clone, Copy, Debug, PartialEq, Eq)]
pub enum Field {
    Strict(u64),
    /// By its class, of which there are eight places.
    Queue(usize, i64),
}

impl fmt::Display for Opening {
    fn fmt(&self, text: &mut fmt::Formatter) -> fmt::Result {
        let QueueOpening {
            flags,
            classes,
            window: Window { start, end },
            rate,
            delay,
            budgets,
        } = &self.contact;
        write!(
            text,
            "strict {}, window [{start},{end}); rate {rate}, delay {delay}, \
             {classes} classes, flags {flags}, budgets {budgets:?}",
            self.strict
        )
    }
}

impl fmt::Display for Field {
    fn fmt(&self, text: &mut fmt::Formatter) -> fmt::Result {
        match self {
            Field::Strict(strict) => write!(text, "strict {strict}"),
            Field::Queue(class, queue) => write!(text, "queue {class}: {queue}"),
        }
    }
}
