//! One dialogue, made along with the reading, so that what is offered can be
//! booked.

use super::{Choices, asked, contacts, fields};
use crate::frames::{Dates, Load, Request};
use crate::generate::rng::Rng;
use crate::limits::{MAX_LISTED, MAX_QUEUE};
use crate::strict::calls::{Calls, OneOf};
use crate::strict::flag::{ON, has_no_length};
use crate::strict::queues::record::Record as Queue;
use crate::strict::queues::terms::Field as QueueField;
use crate::strict::reading::Reading;
use crate::strict::terms::{Call, Dialogue, Field, Manager};
use crate::trial::altered;
use crate::trial::offers::Offers;
use crate::trial::scales::{self, Scale};

/// So many bookings fill a list of 64, with some that are not offered.
const FILLS: usize = 3 * MAX_LISTED;
/// So many requests are looked at for an offer of zero length.
const TRIES: usize = 6;

pub struct Talk<'a> {
    rng: &'a mut Rng,
    choices: Choices,
    reading: Reading,
    dialogue: Dialogue,
    /// What was offered so far, still good or not.
    offers: Vec<(Request, Dates)>,
}

impl Offers for Talk<'_> {
    fn rng(&mut self) -> &mut Rng {
        self.rng
    }

    fn request(&mut self) -> Request {
        asked::request(self.rng, &self.reading)
    }

    fn look(&mut self, request: Request) -> Option<Dates> {
        self.reading.offer(request)
    }

    fn known(&mut self) -> &mut Vec<(Request, Dates)> {
        &mut self.offers
    }

    fn ask_dry_run(&mut self, request: Request) {
        self.ask(Call::DryRun(request));
    }

    fn ask_booking(&mut self, request: Request, stated: Dates) {
        self.ask(Call::Book(request, stated));
    }
}

impl<'a> Talk<'a> {
    pub fn of(rng: &'a mut Rng, manager: Manager, choices: Choices) -> Self {
        Talk {
            rng,
            choices,
            reading: Reading::of(manager),
            dialogue: Dialogue {
                manager,
                calls: Vec::new(),
            },
            offers: Vec::new(),
        }
    }

    pub fn whole(mut self) -> Dialogue {
        if self.rng.once_in(4) {
            self.open_wrongly();
        }
        self.open();
        for _ in 0..self.rng.between(2, 24) {
            self.turn();
        }
        self.ask(Call::List);
        self.ask_everything();
        self.dialogue
    }

    fn ask(&mut self, call: Call) -> u8 {
        let number = self.reading.ask(&call).number();
        self.dialogue.calls.push(call);
        number
    }

    fn manager(&self) -> Manager {
        self.dialogue.manager
    }

    fn queue(&self) -> Option<&Queue> {
        match &self.reading {
            OneOf::Queue(it) => it.record.as_ref(),
            _ => None,
        }
    }

    fn turn(&mut self) {
        if self.manager() == Manager::Queue && self.rng.once_in(8) {
            return self.queue_by_hand();
        }
        match self.rng.below(48) {
            0..8 => self.book(),
            8..18 => self.book_empty(),
            18..26 => self.dry_run(),
            26..29 => self.book_beside(),
            29..32 => self.state_empty(),
            32..34 => self.book_late(),
            34..36 => self.book_otherwise(),
            36..38 => self.ask_wrongly(),
            38..40 => self.ask_list(),
            40..42 => self.damage(),
            42..44 => self.change(),
            44 => self.open_wrongly(),
            45 => self.open(),
            _ => self.ask_own(),
        }
    }

    // -----------------------------------------------------------------------
    // Openings

    /// A polynomial may be outside its range, or delays may not cover; another is
    /// tried then.
    fn open(&mut self) {
        let scale = scales::scale(self.rng);
        loop {
            let chosen = self.choices.pick(self.rng, self.manager());
            let opening = contacts::opening(self.rng, self.dialogue.manager, chosen, scale);
            if self.ask(Call::Open(opening)) == 0 {
                break;
            }
        }
        self.offers.clear();
        if scale == Scale::Roomy && self.rng.once_in(2) {
            self.fill();
        }
    }

    /// A flag or another choice that is none over any contact, or right ones over
    /// a wrong contact.
    fn open_wrongly(&mut self) {
        let scale = scales::scale(self.rng);
        let manager = self.manager();
        let has_choices = self.choices == Choices::Original || self.rng.once_in(2);
        let picked = self.choices.pick(self.rng, manager);
        let chosen = match has_choices {
            true => picked,
            false => self.choices.spoil(self.rng, manager, picked),
        };
        let mut opening = contacts::opening(self.rng, manager, chosen, scale);
        if has_choices || self.rng.once_in(2) {
            contacts::spoil(self.rng, &mut opening);
        }
        // Faults may cancel, and then the record is a new one.
        self.ask(Call::Open(opening));
    }

    /// Up to 64 listed segments, on to the refusal of a 65th, and small bundles
    /// inside what is listed then.
    fn fill(&mut self) {
        for _ in 0..FILLS {
            let Some(request) = asked::inner_request(self.rng, &self.reading) else {
                return;
            };
            // A booking inside a priority segment lists two more.
            let is_full = self.reading.listed() + 1 >= MAX_LISTED;
            self.book_this(request);
            if is_full && self.rng.once_in(4) {
                break;
            }
        }
        for _ in 0..self.rng.between(2, 6) {
            if let Some(request) = asked::small_inside(self.rng, &self.reading) {
                self.book_this(request);
            }
        }
    }

    // -----------------------------------------------------------------------
    // Equal send dates

    /// An offer of zero length, often shown first.
    fn book_empty(&mut self) {
        for _ in 0..TRIES {
            let request = self.request();
            if self.look(request).is_some_and(has_no_length) {
                if self.rng.once_in(3) {
                    self.ask_dry_run(request);
                }
                return self.book_this(request);
            }
        }
        self.dry_run();
    }

    /// Equal send dates that are mostly not offered: 9 before 17.
    fn state_empty(&mut self) {
        let request = self.request();
        let stated = match self.offered(request) {
            Some(offered) => self.empty_beside(offered),
            None => Dates([request.time; 4]),
        };
        self.ask_booking(request, stated);
    }

    fn empty_beside(&mut self, Dates([start, end, from, to]): Dates) -> Dates {
        let later = start + 1;
        Dates(match self.rng.below(4) {
            0 => [start, start, from, from],
            1 => [end, end, to, to],
            2 => [later, later, from + 1, from + 1],
            _ => [start, start, from, from + 1],
        })
    }

    /// Outside the limits, with equal dates: 2 before 17.
    fn ask_wrongly(&mut self) {
        let time = self.request().time;
        self.ask_outside(Dates([time; 4]));
    }

    // -----------------------------------------------------------------------
    // Lists, and what one manager alone has

    fn ask_list(&mut self) {
        let call = match self.manager() {
            Manager::Free if self.rng.once_in(2) => Call::Room,
            _ => Call::List,
        };
        self.ask(call);
    }

    /// Small bundles inside what is listed, and queues by hand and at their limit.
    fn ask_own(&mut self) {
        match self.manager() {
            Manager::Queue if self.rng.once_in(3) => self.fill_queue(),
            Manager::Queue => self.queue_by_hand(),
            _ => match asked::small_inside(self.rng, &self.reading) {
                Some(request) => self.book_this(request),
                None => self.book(),
            },
        }
    }

    fn queue_by_hand(&mut self) {
        for _ in 0..self.rng.between(1, 3) {
            let Some(record) = self.queue().cloned() else {
                return;
            };
            let load = asked::load(self.rng, &record);
            self.ask_by_hand(load);
        }
        if self.rng.once_in(4) {
            let outside = self.request();
            let outside = altered::outside(self.rng, outside);
            self.ask_by_hand(outside.load);
        }
    }

    fn ask_by_hand(&mut self, load: Load) {
        let call = match self.rng.below(5) {
            0..2 => Call::Dequeue(load),
            _ => Call::Enqueue(load),
        };
        self.ask(call);
    }

    /// A queue at its limit, and bookings of higher classes, which would add to it.
    fn fill_queue(&mut self) {
        let classes = self.queue().map_or(0, Queue::classes);
        if self.choices == Choices::Original || classes < 2 {
            return self.queue_by_hand();
        }
        let full = self.rng.below(classes - 1);
        let queue = MAX_QUEUE - self.rng.pick(&[0, 0, 0, 1, 5]);
        let field = Field::Queue(QueueField::Queue(full, queue));
        let old = fields::old(self.manager(), field, &self.reading);
        self.ask(Call::Write(field));
        for _ in 0..self.rng.between(1, 4) {
            let mut request = self.request();
            let higher = self.rng.between(full as i64 + 1, classes as i64 - 1);
            request.load.priority = higher as u8;
            self.book_this(request);
        }
        self.queue_by_hand();
        if self.rng.once_in(2) {
            self.ask(Call::Write(old));
        }
    }

    /// Every time and size, where there are few. What is refused with 17 leaves
    /// the record for the next one.
    fn ask_everything(&mut self) {
        let is_strict = self.reading.chosen().strict == ON;
        for request in asked::every_request(&self.reading) {
            self.ask_dry_run(request);
            match self.look(request) {
                Some(offered) if is_strict && has_no_length(offered) => {
                    self.ask_booking(request, offered);
                }
                _ => {}
            }
        }
    }

    // -----------------------------------------------------------------------
    // Numbers written into records

    fn damage(&mut self) {
        if self.choices == Choices::Original {
            return self.dry_run();
        }
        let field = fields::damage(self.rng, self.dialogue.manager, &self.reading);
        self.write(field);
    }

    fn change(&mut self) {
        if self.choices == Choices::Original {
            return self.book_empty();
        }
        let field = fields::change(self.rng, self.dialogue.manager, &self.reading);
        self.write(field);
    }

    /// A record that breaks its rules by it refuses every call with 1, bundles
    /// outside their limits too, and is as it was when its own is put back.
    fn write(&mut self, field: Field) {
        let request = self.request();
        let offer = self.offered(request).unwrap_or(Dates([request.time; 4]));
        let old = fields::old(self.manager(), field, &self.reading);
        self.ask(Call::Write(field));
        self.ask_dry_run(request);
        self.ask_booking(request, offer);
        if !self.reading.is_whole() {
            let outside = altered::outside(self.rng, request);
            self.ask_dry_run(outside);
            self.ask_list();
            if self.manager() == Manager::Queue {
                self.ask_by_hand(request.load);
            }
            self.ask(Call::Write(old));
        }
    }
}
