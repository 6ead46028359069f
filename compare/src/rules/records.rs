//! Rule 2 behind the frames: the readings' records of edition 1 and mode 1, with
//! the strict flag off, as no frame names it.

use crate::editions::reading as rated;
use crate::editions::terms::{FIRST, Manager, Opening as RatedChoice};
use crate::frames::{Content, Dates, PolyOpening, RatedOpening, Request, Ruled};
use crate::modes::reading as poly;
use crate::modes::terms::{Opening as PolyChoice, PORTED};
use crate::refusal::Refusal;
use crate::state::{Opened, Record};
use crate::strict::flag::OFF;

use super::LATER;

pub fn open(opening: &Ruled) -> Opened {
    match opening {
        Ruled::Free(contact) => open_rated(Manager::Free, contact),
        Ruled::Priority(contact) => open_rated(Manager::Priority, contact),
        Ruled::Poly(contact) => open_poly(contact),
    }
}

fn open_rated(manager: Manager, contact: &RatedOpening) -> Opened {
    let opening = RatedChoice {
        edition: FIRST,
        rule: LATER,
        strict: OFF,
        contact: contact.clone(),
    };
    match rated::opening::refusal(&opening) {
        Some(number) => Err(Refusal::of(number)),
        None => Ok(Box::new(rated::record::Record::opened(manager, &opening))),
    }
}

fn open_poly(contact: &PolyOpening) -> Opened {
    let opening = PolyChoice {
        mode: PORTED,
        rule: LATER,
        strict: OFF,
        contact: contact.clone(),
    };
    match poly::opening::refusal(&opening) {
        Some(number) => Err(Refusal::of(number)),
        None => Ok(Box::new(poly::record::Record::opened(&opening))),
    }
}

impl Record for rated::record::Record {
    fn dry_run(&self, request: Request) -> Result<Dates, Refusal> {
        self.dry_run(request).map_err(Refusal::of)
    }

    fn book(&mut self, request: Request, stated: Dates) -> Result<(), Refusal> {
        self.book(request, stated).map_err(Refusal::of)
    }

    fn list(&self) -> Result<Content, Refusal> {
        Ok(Content::Segments(self.list.clone()))
    }

    fn room(&self) -> Result<i64, Refusal> {
        match self.manager {
            Manager::Free => Ok(self.room()),
            Manager::Priority => Err(Refusal::NotManual),
        }
    }
}

impl Record for poly::record::Record {
    fn dry_run(&self, request: Request) -> Result<Dates, Refusal> {
        self.dry_run(request).map_err(Refusal::of)
    }

    fn book(&mut self, request: Request, stated: Dates) -> Result<(), Refusal> {
        self.book(request, stated).map_err(Refusal::of)
    }

    fn list(&self) -> Result<Content, Refusal> {
        Ok(Content::Segments(self.list.clone()))
    }
}
