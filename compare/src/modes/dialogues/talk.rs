//! One dialogue, made along with the reading, so that what is offered can be
//! booked.

use super::{Modes, asked, contacts, wrong};
use crate::frames::{Dates, Load, Request};
use crate::generate::rng::Rng;
use crate::limits::MAX_LISTED;
use crate::modes::calls::{Calls, ask};
use crate::modes::reading::Reading;
use crate::modes::reading::record::Record;
use crate::modes::terms::{Call, Dialogue, EXACT, Field, Opening, PORTED};
use crate::rules;
use crate::strict::flag;
use crate::trial::offers::Offers;
use crate::trial::scales::{self, Scale};
use crate::trial::{altered, choices};

/// So many bookings fill a list of 64, with some that are not offered.
const FILLS: usize = 3 * MAX_LISTED;

pub struct Talk<'a> {
    rng: &'a mut Rng,
    modes: Modes,
    reading: Reading,
    dialogue: Dialogue,
    /// What was offered so far, still good or not.
    offers: Vec<(Request, Dates)>,
}

impl Offers for Talk<'_> {
    fn rng(&mut self) -> &mut Rng {
        self.rng
    }

    fn request(&mut self) -> Request {
        let record = self.reading.record.as_ref().expect("opened at first");
        asked::request(self.rng, record)
    }

    fn look(&mut self, request: Request) -> Option<Dates> {
        self.reading.dry_run(request).ok()
    }

    fn known(&mut self) -> &mut Vec<(Request, Dates)> {
        &mut self.offers
    }

    fn ask_dry_run(&mut self, request: Request) {
        self.ask(Call::DryRun(request));
    }

    fn ask_booking(&mut self, request: Request, stated: Dates) {
        self.ask(Call::Book(request, stated));
    }
}

impl<'a> Talk<'a> {
    pub fn of(rng: &'a mut Rng, modes: Modes) -> Self {
        Talk {
            rng,
            modes,
            reading: Reading::default(),
            dialogue: Dialogue::default(),
            offers: Vec::new(),
        }
    }

    pub fn whole(mut self) -> Dialogue {
        while self.rng.once_in(3) {
            self.open_wrongly();
        }
        self.open();
        for _ in 0..self.rng.between(2, 24) {
            self.turn();
        }
        self.ask(Call::List);
        self.ask_everything();
        self.dialogue
    }

    fn ask(&mut self, call: Call) {
        ask(&mut self.reading, &call);
        self.dialogue.calls.push(call);
    }

    fn record(&self) -> &Record {
        self.reading.record.as_ref().expect("opened at first")
    }

    fn turn(&mut self) {
        match self.rng.below(48) {
            0..13 => self.book(),
            13..30 => self.dry_run(),
            30..33 => self.book_beside(),
            33..35 => self.book_late(),
            35..37 => self.book_otherwise(),
            37..39 => self.ask_outside(Dates([0; 4])),
            39 => self.ask_anything(),
            40..42 => self.ask(Call::List),
            42 => self.damage(),
            43..45 => self.change(),
            45..47 => self.open_wrongly(),
            _ => self.open(),
        }
    }

    // -----------------------------------------------------------------------
    // Openings

    /// The range rule's limit may be passed, or delays may not cover; another is
    /// tried then.
    fn open(&mut self) {
        let scale = scales::scale(self.rng);
        loop {
            let picked = self.modes.pick(self.rng);
            let opening = contacts::opening(self.rng, picked, scale);
            let said = ask(&mut self.reading, &Call::Open(opening.clone()));
            self.dialogue.calls.push(Call::Open(opening));
            if said.number() == 0 {
                break;
            }
        }
        self.offers.clear();
        let fills = match scale {
            Scale::Roomy => self.rng.once_in(2),
            Scale::Limit => self.rng.once_in(24),
            _ => false,
        };
        if fills {
            self.fill();
        }
    }

    /// A wrong mode, rule or flag over any contact, or right ones over a wrong contact.
    fn open_wrongly(&mut self) {
        let has_choices = self.modes == Modes::Ported || !self.rng.once_in(3);
        let picked = self.modes.pick(self.rng);
        let scale = scales::scale(self.rng);
        let Opening { mut contact, .. } = contacts::opening(self.rng, picked, scale);
        if has_choices || self.rng.once_in(2) {
            wrong::spoil(self.rng, &mut contact);
        }
        let chosen = match has_choices {
            true => picked,
            false => choices::spoiled(self.rng, picked),
        };
        // Faults may cancel, and then the record is a new one.
        self.ask(Call::Open(Opening::of(chosen, contact)));
    }

    /// Up to 64 listed segments, and on to the refusal of a 65th.
    fn fill(&mut self) {
        for _ in 0..FILLS {
            let record = self.reading.record.as_ref().expect("opened at first");
            let Some(request) = asked::inner_request(self.rng, record) else {
                return;
            };
            let is_full = record.list.len() >= MAX_LISTED;
            self.book_this(request);
            if is_full && self.rng.once_in(6) {
                return;
            }
        }
    }

    // -----------------------------------------------------------------------
    // Many dry runs

    /// Any 64 bits, in or outside the limits.
    fn ask_anything(&mut self) {
        let mut number = || self.rng.word() as i64;
        let dates = Dates([(); 4].map(|()| number()));
        let load = Load {
            size: number(),
            priority: number() as u8,
        };
        let request = Request {
            time: number(),
            load,
        };
        match self.rng.once_in(2) {
            true => self.ask(Call::DryRun(request)),
            false => self.ask(Call::Book(request, dates)),
        }
    }

    /// Every time and size, where there are few.
    fn ask_everything(&mut self) {
        for request in asked::every_request(self.record()) {
            self.ask(Call::DryRun(request));
        }
    }

    // -----------------------------------------------------------------------
    // Numbers written into records

    /// A mode, a rule or a flag that is none.
    fn damage(&mut self) {
        if self.modes == Modes::Ported {
            return self.dry_run();
        }
        let none = choices::none(self.rng);
        let field = match self.rng.below(3) {
            0 => Field::Mode(none),
            1 => Field::Rule(none),
            _ => Field::Strict(choices::no_flag(self.rng)),
        };
        self.write(field);
    }

    /// The other mode, rule or flag, or another number of the polynomial. Delays
    /// that do not cover are no list of rule 2.
    fn change(&mut self) {
        if self.modes == Modes::Ported {
            return self.dry_run();
        }
        let opening = &self.record().opening;
        let other = match opening.mode == EXACT {
            true => PORTED,
            false => EXACT,
        };
        let opening = opening.clone();
        let field = match self.rng.below(7) {
            0..2 => Field::Mode(other),
            2..4 => Field::Rule(rules::other(opening.rule)),
            4 => Field::Strict(flag::other(opening.strict)),
            _ => wrong::number(self.rng, &opening),
        };
        self.write(field);
    }

    /// A record that breaks its rules by it refuses every call with 1, bundles
    /// outside their limits too, and is as it was when its own is put back.
    fn write(&mut self, field: Field) {
        let request = self.request();
        let offer = self.offered(request).unwrap_or(Dates([0; 4]));
        let old = wrong::old(field, &self.record().opening);
        self.ask(Call::Write(field));
        self.ask(Call::DryRun(request));
        self.ask(Call::Book(request, offer));
        if self.record().test().is_err() {
            let outside = altered::outside(self.rng, request);
            self.ask(Call::DryRun(outside));
            self.ask(Call::List);
            self.ask(Call::Write(old));
        }
    }
}
