//! One dialogue, made along with the reading, so that what is offered can be
//! booked.

use super::{Editions, asked, contacts, wrong};
use crate::editions::calls::{Calls, ask};
use crate::editions::reading::Reading;
use crate::editions::reading::record::Record;
use crate::editions::terms::{Call, Dialogue, FIRST, Field, Manager, Opening, SECOND};
use crate::frames::{Dates, Request};
use crate::generate::rng::Rng;
use crate::limits::MAX_LISTED;
use crate::rules;
use crate::strict::flag;
use crate::trial::choices;
use crate::trial::offers::Offers;
use crate::trial::scales::{self, Scale};

/// So many bookings fill a list of 64, with some that are not offered.
const FILLS: usize = 3 * MAX_LISTED;

pub struct Talk<'a> {
    rng: &'a mut Rng,
    editions: Editions,
    reading: Reading,
    dialogue: Dialogue,
    /// What was offered so far, still good or not.
    offers: Vec<(Request, Dates)>,
}

impl Offers for Talk<'_> {
    fn rng(&mut self) -> &mut Rng {
        self.rng
    }

    fn request(&mut self) -> Request {
        let record = self.reading.record.as_ref().expect("opened at first");
        asked::request(self.rng, record)
    }

    fn look(&mut self, request: Request) -> Option<Dates> {
        self.reading.dry_run(request).ok()
    }

    fn known(&mut self) -> &mut Vec<(Request, Dates)> {
        &mut self.offers
    }

    fn ask_dry_run(&mut self, request: Request) {
        self.ask(Call::DryRun(request));
    }

    fn ask_booking(&mut self, request: Request, stated: Dates) {
        self.ask(Call::Book(request, stated));
    }
}

impl<'a> Talk<'a> {
    pub fn of(rng: &'a mut Rng, manager: Manager, editions: Editions) -> Self {
        Talk {
            rng,
            editions,
            reading: Reading::of(manager),
            dialogue: Dialogue {
                manager,
                calls: Vec::new(),
            },
            offers: Vec::new(),
        }
    }

    pub fn whole(mut self) -> Dialogue {
        if self.rng.once_in(4) {
            self.open_wrongly();
        }
        self.open();
        // Few, as a small contact is soon booked up.
        for _ in 0..self.rng.between(2, 24) {
            self.turn();
        }
        self.ask(Call::List);
        self.ask_everything();
        self.dialogue
    }

    fn ask(&mut self, call: Call) {
        ask(&mut self.reading, &call);
        self.dialogue.calls.push(call);
    }

    fn record(&self) -> &Record {
        self.reading.record.as_ref().expect("opened at first")
    }

    fn turn(&mut self) {
        match self.rng.below(48) {
            0..14 => self.book(),
            14..30 => self.dry_run(),
            30..34 => self.book_beside(),
            34..36 => self.book_late(),
            36..38 => self.book_otherwise(),
            38..40 => self.ask_wrongly(),
            40..42 => self.ask(Call::List),
            42..44 => self.ask_room(),
            44..46 => self.damage(),
            46 => self.open_wrongly(),
            _ => self.change(),
        }
    }

    // -----------------------------------------------------------------------
    // Openings

    fn open(&mut self) {
        let scale = scales::scale(self.rng);
        let chosen = self.editions.pick(self.rng);
        let contact = contacts::contact(self.rng, scale);
        self.ask(Call::Open(Opening::of(chosen, contact)));
        self.offers.clear();
        let is_long = matches!(scale, Scale::Roomy | Scale::Limit);
        if scale == Scale::Roomy || is_long && self.rng.once_in(12) {
            self.fill();
        }
    }

    /// A wrong edition, rule or flag over any contact, or right ones over a wrong
    /// contact.
    fn open_wrongly(&mut self) {
        let scale = scales::scale(self.rng);
        let mut contact = contacts::contact(self.rng, scale);
        let has_choices = self.editions == Editions::First || self.rng.once_in(2);
        if has_choices || self.rng.once_in(2) {
            wrong::spoil(self.rng, &mut contact);
        }
        let picked = self.editions.pick(self.rng);
        let chosen = match has_choices {
            true => picked,
            false => choices::spoiled(self.rng, picked),
        };
        // Faults may cancel, and then the record is a new one.
        self.ask(Call::Open(Opening::of(chosen, contact)));
    }

    /// Up to 64 listed segments, and on to the refusal of a 65th.
    fn fill(&mut self) {
        for _ in 0..FILLS {
            let record = self.reading.record.as_ref().expect("opened at first");
            let Some(request) = asked::inner_request(self.rng, record) else {
                return;
            };
            // A booking inside a priority segment lists two more.
            let is_full = record.list.len() + 1 >= MAX_LISTED;
            self.book_this(request);
            if is_full && self.rng.once_in(6) {
                return;
            }
        }
    }

    // -----------------------------------------------------------------------
    // Many dry runs

    fn ask_wrongly(&mut self) {
        let start = self.record().window.start;
        self.ask_outside(Dates([start; 4]));
    }

    /// Every time and size, where there are few.
    fn ask_everything(&mut self) {
        for request in asked::every_request(self.record()) {
            self.ask(Call::DryRun(request));
        }
    }

    fn ask_room(&mut self) {
        match self.dialogue.manager {
            Manager::Free => self.ask(Call::Room),
            Manager::Priority => self.ask(Call::List),
        }
    }

    // -----------------------------------------------------------------------
    // Editions, rules and flags in records

    /// A record whose edition, rule or flag is none refuses every call with 1, bundles
    /// outside their limits too, and is as it was when its own is put back.
    fn damage(&mut self) {
        if self.editions == Editions::First {
            return self.dry_run();
        }
        let (none, no_flag) = (choices::none(self.rng), choices::no_flag(self.rng));
        let which = self.rng.below(3);
        let record = self.record();
        let (damage, whole) = match which {
            0 => (Field::Edition(none), Field::Edition(record.edition)),
            1 => (Field::Rule(none), Field::Rule(record.rule)),
            _ => (Field::Strict(no_flag), Field::Strict(record.strict)),
        };
        let request = self.request();
        let offer = self.offered(request).unwrap_or(Dates([0; 4]));
        self.ask(Call::Write(damage));
        self.ask(Call::DryRun(request));
        self.ask(Call::Book(request, offer));
        self.ask_wrongly();
        self.ask_room();
        self.ask(Call::Write(whole));
    }

    /// The other edition, rule or flag from now on; or another contact.
    fn change(&mut self) {
        if self.editions == Editions::First || self.rng.once_in(2) {
            return self.open();
        }
        let which = self.rng.below(3);
        let record = self.record();
        let other = match which {
            0 => Field::Edition(FIRST + SECOND - record.edition),
            1 => Field::Rule(rules::other(record.rule)),
            _ => Field::Strict(flag::other(record.strict)),
        };
        self.ask(Call::Write(other));
    }
}
