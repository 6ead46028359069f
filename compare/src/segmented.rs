//! What the three segmentation managers share: a bounded list of segments.

use asabr::contact::Contact;
use asabr::contact_manager::ContactManager;

use crate::calls;
use crate::frames::{Content, Dates, Load, Request, Span};
use crate::limits::{self, MAX_LISTED};
use crate::refusal::Refusal;
use crate::state::Record;

/// A manager of the original whose private list can be read.
pub trait Lists: ContactManager + Clone {
    /// By how many segments one booking can lengthen the list.
    const GROWTH: usize;

    fn listed(&self) -> usize;
    fn spans(&self) -> Result<Vec<Span>, Refusal>;

    /// The sum of the listed volumes, added up anew each time: the original
    /// keeps none. Only the free-volume manager lists volumes.
    fn room(&self) -> Result<i64, Refusal> {
        Err(Refusal::NotManual)
    }
}

pub struct Segmented<M: Lists> {
    pub contact: Contact<M>,
}

impl<M: Lists> Segmented<M> {
    fn is_overfull(&self) -> bool {
        self.contact.manager.listed() > MAX_LISTED
    }

    /// Refusal 10. The original has no bound, so it books first; a copy from
    /// before is put back where the list has become too long. Cloning only
    /// where that can happen keeps the other bookings at the original's speed.
    fn book_within_bound(&mut self, load: Load, stated: Dates) -> Result<(), Refusal> {
        let before =
            (self.contact.manager.listed() + M::GROWTH > MAX_LISTED).then(|| self.contact.clone());
        calls::schedule(&mut self.contact, load, stated)?;
        if !self.is_overfull() {
            return Ok(());
        }
        self.contact = before.ok_or(Refusal::Fault)?;
        Err(Refusal::ListFull)
    }
}

impl<M: Lists> Record for Segmented<M> {
    fn dry_run(&self, request: Request) -> Result<Dates, Refusal> {
        limits::test_request(request)?;
        calls::dry_run(&self.contact, request)
    }

    fn book(&mut self, request: Request, stated: Dates) -> Result<(), Refusal> {
        limits::test_request(request)?;
        calls::test_offered(&self.contact, request, stated)?;
        self.book_within_bound(request.load, stated)
    }

    fn list(&self) -> Result<Content, Refusal> {
        self.contact.manager.spans().map(Content::Segments)
    }

    /// 12 whatever the load: the trait's own method answers `false`.
    fn enqueue(&mut self, load: Load) -> Result<(), Refusal> {
        calls::enqueue(&mut self.contact, load)
    }

    /// 12 whatever the load: the trait's own method answers `false`.
    fn dequeue(&mut self, load: Load) -> Result<(), Refusal> {
        calls::dequeue(&mut self.contact, load)
    }

    fn room(&self) -> Result<i64, Refusal> {
        self.contact.manager.room()
    }
}
