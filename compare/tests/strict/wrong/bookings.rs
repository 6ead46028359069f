//! Flaws of the bookings.

use oracle::editions::terms::SECOND;
use oracle::frames::{Dates, Request};
use oracle::strict::calls::{Calls, OneOf};
use oracle::strict::flag::{OFF, ON, is_flag, other};
use oracle::strict::terms::{Call, Manager};
use oracle::trial::answers::Said;

use super::flaw::Flaw;
use super::{Wrong, is_empty, says_off};

const REFUSED: Said = Said::Number(17);

impl Wrong {
    pub fn book(&mut self, request: Request, stated: Dates) -> Said {
        let call = Call::Book(request, stated);
        if let Some(strict) = self.taken_flag() {
            return self.ask_as(strict, &call);
        }
        if let Some(said) = self.misplaced(&call, stated) {
            return said;
        }
        let right = self.would_say(self.flag(), &call);
        match right.number() {
            0 if self.refuses_more(request, stated) => REFUSED,
            17 => self.refuse(request, stated, &call),
            _ => self.booked(&call),
        }
    }

    /// The flag that the program goes by, where it is not the record's.
    fn taken_flag(&self) -> Option<u64> {
        let own = self.flag();
        let updates_itself = match &self.reading {
            OneOf::Queue(it) => it.record.as_ref().map(|record| record.updates_itself()),
            _ => None,
        };
        let is_off = match self.flaw {
            Flaw::Ignored => true,
            Flaw::FreeIgnores => self.manager == Manager::Free,
            Flaw::PriorityIgnores => self.manager == Manager::Priority,
            Flaw::QueueIgnores => self.manager == Manager::Queue,
            Flaw::OnlySelfUpdate => updates_itself == Some(false),
            Flaw::OnlyWithout => updates_itself == Some(true),
            _ => false,
        };
        match self.flaw {
            _ if !is_flag(own) => None,
            Flaw::Always => Some(ON),
            Flaw::Swapped => Some(other(own)),
            _ => is_off.then_some(OFF),
        }
    }

    /// What is answered in another order.
    fn misplaced(&self, call: &Call, stated: Dates) -> Option<Said> {
        if !(self.flag() == ON && is_empty(stated)) {
            return None;
        }
        let Call::Book(request, _) = call else {
            return None;
        };
        let has_no_offer = || self.reading.offer(*request).is_none();
        let is_misplaced = match self.flaw {
            Flaw::BeforeTwo => says_off(self, call, 2),
            Flaw::BeforeNine => says_off(self, call, 9),
            Flaw::BeforeNoOffer => says_off(self, call, 9) && has_no_offer(),
            _ => false,
        };
        is_misplaced.then_some(REFUSED)
    }

    /// Whether what is accepted under the flag is refused too.
    fn refuses_more(&self, request: Request, Dates([start, end, from, to]): Dates) -> bool {
        let is_second = self.reading.chosen().kind == SECOND;
        let is_tick = end - start == 1;
        let refuses = match self.flaw {
            Flaw::OneTick => is_tick,
            Flaw::PolyOneTick => is_tick && self.manager == Manager::Poly,
            Flaw::SecondOneTick => is_tick && is_second && self.manager.rated().is_some(),
            Flaw::EqualReceive => from == to,
            Flaw::AnyRest => self.has_rest(request, start, end),
            _ => false,
        };
        refuses && self.flag() == ON
    }

    /// Whether the ticks sent carry less than the size.
    fn has_rest(&self, request: Request, start: i64, end: i64) -> bool {
        match &self.reading {
            OneOf::Rated(it) => it.record.as_ref().is_some_and(|record| {
                record.capacity.between(start, end) < request.load.size as u128
            }),
            _ => false,
        }
    }

    /// What is refused with 17, as the program does it.
    fn refuse(&mut self, request: Request, stated: Dates, call: &Call) -> Said {
        let before = self.refused.replace((request, stated));
        match self.flaw {
            Flaw::AfterTen if says_off(self, call, 10) => Said::Number(10),
            Flaw::AfterThirteen if says_off(self, call, 13) => Said::Number(13),
            Flaw::IsNine => Said::Number(9),
            Flaw::IsSeven => Said::Number(7),
            Flaw::IsTen => Said::Number(10),
            Flaw::Once if before == Some((request, stated)) => self.ask_as(OFF, call),
            Flaw::NotAtTheEnd if stated.0[1] == self.last_tick() => self.ask_as(OFF, call),
            Flaw::ChangesNothing if self.changes_nothing(call) => self.ask_as(OFF, call),
            Flaw::AtAStart if self.is_at_a_start(stated) => self.ask_as(OFF, call),
            Flaw::Alters => {
                self.ask_as(OFF, call);
                REFUSED
            }
            Flaw::AltersInPlace if self.keeps_length(call) => {
                self.ask_as(OFF, call);
                REFUSED
            }
            Flaw::LosesFlagAt17 => {
                self.put_flag(OFF);
                REFUSED
            }
            _ => REFUSED,
        }
    }

    /// What is not refused with 17.
    fn booked(&mut self, call: &Call) -> Said {
        let said = self.reading.ask(call);
        match self.flaw {
            Flaw::LosesFlag if said.number() == 0 => self.put_flag(OFF),
            Flaw::GainsFlag if said.number() == 0 => self.put_flag(ON),
            _ => {}
        }
        said
    }

    fn last_tick(&self) -> i64 {
        match &self.reading {
            OneOf::Rated(it) => it.record.as_ref().map_or(0, |it| it.window.end),
            OneOf::Poly(it) => it.record.as_ref().map_or(0, |it| it.window().end),
            OneOf::Queue(it) => {
                let record = it.record.as_ref();
                record.map_or(0, |it| it.opening.contact.window.end)
            }
        }
    }

    fn after(&self, call: &Call) -> Wrong {
        let mut after = self.clone();
        after.ask_as(OFF, call);
        after
    }

    fn changes_nothing(&self, call: &Call) -> bool {
        let list = |wrong: &Wrong| wrong.clone().reading.ask(&Call::List);
        self.manager == Manager::Priority && list(self) == list(&self.after(call))
    }

    fn keeps_length(&self, call: &Call) -> bool {
        self.reading.listed() == self.after(call).reading.listed()
    }

    fn is_at_a_start(&self, Dates([start, ..]): Dates) -> bool {
        match &self.reading {
            OneOf::Rated(it) if self.manager == Manager::Free => {
                let list = it.record.as_ref().map(|record| &record.list);
                list.is_some_and(|list| list.iter().any(|span| span.start == start))
            }
            _ => false,
        }
    }
}
