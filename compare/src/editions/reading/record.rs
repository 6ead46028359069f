//! A record of either manager as plain vectors, and what both do with it.

use super::capacity::Capacity;
use super::{free, priority};
use crate::editions::terms::{FIRST, Manager, Opening, is_edition};
use crate::frames::{Dates, Load, Request, Span, Window};
use crate::limits::MAX_LISTED;
use crate::modes::reading::record::test_request;
use crate::rules::is_rule;
use crate::rules::lookup::Delays;
use crate::strict::flag;
use crate::trial::choices::Chosen;

/// The listed value of what is not booked.
const NOT_BOOKED: i64 = -1;

/// A send, and where in the list it begins.
#[derive(Clone, Copy, Debug, PartialEq, Eq)]
pub struct Send {
    pub place: usize,
    pub start: i64,
    pub end: i64,
}

#[derive(Clone, Debug)]
pub struct Record {
    pub manager: Manager,
    pub edition: u64,
    pub rule: u64,
    pub strict: u64,
    pub window: Window,
    pub capacity: Capacity,
    pub delays: Vec<Span>,
    pub list: Vec<Span>,
}

impl Record {
    /// "Openings list the whole window, with the total volume" or "with -1".
    pub fn opened(manager: Manager, opening: &Opening) -> Self {
        let window = opening.contact.window;
        let capacity = Capacity::of(window, &opening.contact.rates);
        let Window { start, end } = window;
        let value = match manager {
            Manager::Free => capacity.between(start, end) as i64,
            Manager::Priority => NOT_BOOKED,
        };
        Record {
            manager,
            edition: opening.edition,
            rule: opening.rule,
            strict: opening.strict,
            window,
            capacity,
            delays: opening.contact.delays.clone(),
            list: vec![Span { start, end, value }],
        }
    }

    pub fn chosen(&self) -> Chosen {
        Chosen {
            kind: self.edition,
            rule: self.rule,
            strict: self.strict,
        }
    }

    /// The end from this start, not after the deadline. Edition 2 takes u;
    /// edition 1 takes it where the size has left exactly then, else u - 1.
    pub fn end(&self, start: i64, size: i64, deadline: i64) -> Option<i64> {
        let u = self.capacity.reaches(start, size)?;
        let is_exact = self.capacity.between(start, u) == size as u128;
        let end = match self.edition == FIRST && !is_exact {
            true => u - 1,
            false => u,
        };
        (end <= deadline).then_some(end)
    }

    pub fn dry_run(&self, request: Request) -> Result<Dates, u8> {
        self.test(request)?;
        let send = self.find(request).ok_or(7)?;
        self.dates(send)
    }

    pub fn book(&mut self, request: Request, stated: Dates) -> Result<(), u8> {
        self.test(request)?;
        if self.dry_run(request) != Ok(stated) {
            return Err(9);
        }
        flag::test(self.strict, stated)?;
        let send = self.find(request).ok_or(9)?;
        let list = self.cut(send, request.load);
        if list.len() > MAX_LISTED {
            return Err(10);
        }
        self.list = list;
        Ok(())
    }

    /// The sum of the listed volumes.
    pub fn room(&self) -> i64 {
        self.list.iter().map(|span| span.value).sum()
    }

    /// 1 before 2. Only what a record was opened to choose can be wrong here.
    pub fn test(&self, request: Request) -> Result<(), u8> {
        self.test_choices()?;
        test_request(request)
    }

    pub fn test_choices(&self) -> Result<(), u8> {
        let are_there =
            is_edition(self.edition) && is_rule(self.rule) && flag::is_flag(self.strict);
        if are_there { Ok(()) } else { Err(1) }
    }

    pub fn find(&self, request: Request) -> Option<Send> {
        match self.manager {
            Manager::Free => free::find(self, request),
            Manager::Priority => priority::find(self, request),
        }
    }

    pub fn cut(&self, send: Send, load: Load) -> Vec<Span> {
        match self.manager {
            Manager::Free => free::cut(self, send, load.size),
            Manager::Priority => priority::cut(self, send, load.priority),
        }
    }

    pub fn dates(&self, send: Send) -> Result<Dates, u8> {
        self.looked_up().dates(send.start, send.end)
    }

    pub fn looked_up(&self) -> Delays<'_> {
        Delays {
            rule: self.rule,
            window: self.window,
            list: &self.delays,
        }
    }
}
