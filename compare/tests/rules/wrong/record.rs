//! A record of either rule whose lookups and bookings can be wrong.

use oracle::editions::reading::record::Record as Rated;
use oracle::editions::terms::{FIRST, Manager, Opening as RatedOpened};
use oracle::frames::{Content, Dates, RatedOpening, Request, Ruled};
use oracle::limits::MAX_LISTED;
use oracle::modes::reading::record::{Record as Poly, test_request};
use oracle::modes::terms::{Opening as PolyOpened, PORTED};
use oracle::refusal::Refusal;
use oracle::rules::{self, EARLIER};
use oracle::state::Record;
use oracle::strict::flag::OFF;

use super::flaw::{Flaw, Whose};

/// A reading's record of either kind, opened under a rule of its own.
#[derive(Clone)]
pub enum Kept {
    Rated(Box<Rated>),
    Poly(Box<Poly>),
}

/// The record with a flaw, behind the frames.
pub struct Wrong {
    pub flaw: Flaw,
    pub kept: Kept,
}

impl Kept {
    pub fn of(opening: &Ruled, rule: u64) -> Self {
        let rated = |manager, contact: &RatedOpening| {
            let opening = RatedOpened {
                edition: FIRST,
                rule,
                strict: OFF,
                contact: contact.clone(),
            };
            Kept::Rated(Box::new(Rated::opened(manager, &opening)))
        };
        match opening {
            Ruled::Free(contact) => rated(Manager::Free, contact),
            Ruled::Priority(contact) => rated(Manager::Priority, contact),
            Ruled::Poly(contact) => Kept::Poly(Box::new(Poly::opened(&PolyOpened {
                mode: PORTED,
                rule,
                strict: OFF,
                contact: contact.clone(),
            }))),
        }
    }

    fn whose(&self) -> Whose {
        match self {
            Kept::Poly(_) => Whose::Poly,
            Kept::Rated(record) if record.manager == Manager::Free => Whose::Free,
            Kept::Rated(_) => Whose::Priority,
        }
    }

    /// With this rule from now on.
    fn ruled(&self, rule: u64) -> Self {
        let mut kept = self.clone();
        match &mut kept {
            Kept::Rated(record) => record.rule = rule,
            Kept::Poly(record) => record.opening.rule = rule,
        }
        kept
    }

    fn rule(&self) -> u64 {
        match self {
            Kept::Rated(record) => record.rule,
            Kept::Poly(record) => record.opening.rule,
        }
    }

    /// Its own dry run, without a test of the record.
    fn dry_run(&self, flaw: Flaw, request: Request) -> Result<Dates, u8> {
        let (delays, send) = match self {
            Kept::Rated(record) => {
                record.test(request)?;
                let send = record.find(request).ok_or(7)?;
                (record.looked_up(), (send.start, send.end))
            }
            Kept::Poly(record) => {
                test_request(request)?;
                let send = record.find(request).ok_or(7)?;
                (record.looked_up(), (send.start, send.end))
            }
        };
        let own = self.whose();
        match flaw {
            Flaw::Looks(lookup, whose) if whose == own || whose == Whose::All => {
                lookup.dates(delays, send.0, send.1)
            }
            _ => delays.dates(send.0, send.1),
        }
    }

    /// The list is cut as the right record cuts it: under its right dates.
    fn cut(&mut self, request: Request) -> Result<(), u8> {
        match self {
            Kept::Rated(record) => {
                let send = record.find(request).ok_or(9)?;
                let list = record.cut(send, request.load);
                record.list = within(list)?;
            }
            Kept::Poly(record) => {
                let send = record.find(request).ok_or(9)?;
                let list = record.cut(send);
                record.list = within(list)?;
            }
        }
        Ok(())
    }
}

fn within<T>(list: Vec<T>) -> Result<Vec<T>, u8> {
    if list.len() > MAX_LISTED {
        Err(10)
    } else {
        Ok(list)
    }
}

impl Wrong {
    fn is_offered(&self, request: Request, stated: Dates) -> Result<bool, u8> {
        let own = self.kept.dry_run(self.flaw, request);
        if let Err(2) = own {
            return Err(2);
        }
        let Ok(own) = own else {
            return Ok(false);
        };
        let other = || {
            let other = self.kept.ruled(rules::other(self.kept.rule()));
            other.dry_run(self.flaw, request)
        };
        Ok(match self.flaw {
            Flaw::AnyReceived => own.0[..2] == stated.0[..2],
            Flaw::EitherRule => own == stated || other() == Ok(stated),
            _ => own == stated,
        })
    }
}

impl Record for Wrong {
    fn dry_run(&self, request: Request) -> Result<Dates, Refusal> {
        self.kept.dry_run(self.flaw, request).map_err(Refusal::of)
    }

    fn book(&mut self, request: Request, stated: Dates) -> Result<(), Refusal> {
        if !self.is_offered(request, stated).map_err(Refusal::of)? {
            return Err(Refusal::NotOffered);
        }
        self.kept.cut(request).map_err(Refusal::of)?;
        if self.flaw == Flaw::BookingForgets {
            self.kept = self.kept.ruled(EARLIER);
        }
        Ok(())
    }

    fn list(&self) -> Result<Content, Refusal> {
        Ok(Content::Segments(match &self.kept {
            Kept::Rated(record) => record.list.clone(),
            Kept::Poly(record) => record.list.clone(),
        }))
    }

    fn room(&self) -> Result<i64, Refusal> {
        match &self.kept {
            Kept::Rated(record) if self.flaw != Flaw::NoRoom => Record::room(&**record),
            _ => Err(Refusal::NotManual),
        }
    }
}
