//! Random dialogues with frames 21 to 23 (document 02, R-4): delays that change
//! often, asked for and sent up to where they change, under both rules.

pub mod contacts;
mod lines;

use super::dialogues::{Manager, Scene, Talk};
use super::openings::wrong;
use super::rng::Rng;
use super::sink::Sink;
use crate::frames::{Dates, Frame, Load, Request, Ruled};
use crate::limits::{MAX_DATE, MAX_SIZE};
use crate::rules::lookup::Delays;
use crate::rules::{self, EARLIER};
use contacts::Contact;

/// The managers that look up delays.
pub const MANAGERS: [Manager; 3] = [Manager::Free, Manager::Priority, Manager::Poly];

/// Of so many openings under rule 1 one is a frame 01 to 03.
const PLAIN_SHARE: usize = 4;
/// So many openings are tried; one that is refused is compared too.
const TRIES: usize = 8;
/// One dialogue in so many fills the list.
const FILL_SHARE: usize = 24;

pub fn dialogue(rng: &mut Rng, manager: Manager, sink: &mut Sink) {
    while rng.once_in(3) {
        refused(rng, sink);
    }
    let fills = rng.once_in(FILL_SHARE);
    let make = match fills {
        true => contacts::roomy,
        false => contacts::opening,
    };
    let Some((contact, rule)) = opened(rng, manager, sink, make) else {
        return;
    };
    let scene = Scene::of(&contact.opening.clone().plain());
    let mut talk = Ruling {
        talk: Talk::over(rng, sink, scene),
        contact,
        rule,
        booked: None,
    };
    if fills {
        talk.talk.fill();
    }
    for _ in 0..talk.talk.rng.between(5, 40) {
        talk.step(manager);
    }
    let _ = talk.talk.sink.ask(&Frame::List);
    let _ = talk.talk.sink.ask(&Frame::Room);
}

/// The contact that is open, and its rule.
fn opened(
    rng: &mut Rng,
    manager: Manager,
    sink: &mut Sink,
    make: fn(&mut Rng, Manager) -> Ruled,
) -> Option<(Contact, u8)> {
    for _ in 0..TRIES {
        let opening = make(rng, manager);
        let rule = contacts::rule(rng);
        let is_plain = u64::from(rule) == EARLIER && rng.once_in(PLAIN_SHARE);
        let frame = match is_plain {
            true => opening.clone().plain(),
            false => Frame::OpenRuled(opening.clone(), rule),
        };
        if sink.ask(&frame).is_ok() {
            return Some((Contact::of(opening), rule));
        }
    }
    None
}

/// What is refused, mostly, and then what the old record still lists.
pub fn refused(rng: &mut Rng, sink: &mut Sink) {
    let manager = rng.pick(&MANAGERS);
    let rule = contacts::rule(rng);
    let none = lines::no_rule(rng);
    let _ = match rng.below(9) {
        0 => sink.ask(&Frame::OpenRuled(contacts::opening(rng, manager), none)),
        1 => sink.ask(&wrong(rng).ruled(none)),
        2..4 => sink.ask(&wrong(rng).ruled(rule)),
        4..6 => sink.ask(&Frame::OpenRuled(contacts::with_gap(rng, manager), rule)),
        6 => sink.ask(&Frame::OpenRuled(contacts::too_large(rng, manager), rule)),
        _ => {
            let opening = contacts::opening(rng, manager);
            sink.line(&lines::of_another_length(rng, opening, rule))
        }
    };
    if rng.once_in(2) {
        let _ = sink.ask(&Frame::List);
    }
}

/// Any opening with a rule byte, right or wrong, for lines that are damaged.
pub fn any(rng: &mut Rng) -> Frame {
    let manager = rng.pick(&MANAGERS);
    let rule = match rng.once_in(3) {
        true => lines::no_rule(rng),
        false => contacts::rule(rng),
    };
    Frame::OpenRuled(contacts::opening(rng, manager), rule)
}

struct Ruling<'a> {
    talk: Talk<'a>,
    contact: Contact,
    rule: u8,
    /// The last booking.
    booked: Option<(Request, Dates)>,
}

impl Ruling<'_> {
    fn step(&mut self, manager: Manager) {
        match self.talk.rng.below(24) {
            0..5 => self.talk.step(manager),
            5..11 => self.dry_run(),
            11..16 => self.book(),
            16..18 => self.book_by_other_rule(),
            18 => self.book_again(),
            19..21 => drop(self.talk.sink.ask(&Frame::List)),
            21 => drop(self.talk.sink.ask(&Frame::Room)),
            22 => refused(self.talk.rng, self.talk.sink),
            _ => self.ask_all_boundaries(),
        }
    }

    fn dry_run(&mut self) {
        let request = self.request();
        let _ = self.talk.sink.ask(&Frame::DryRun(request));
    }

    fn book(&mut self) {
        let request = self.request();
        let Ok(dates) = self.talk.sink.look(request) else {
            return drop(self.talk.sink.ask(&Frame::DryRun(request)));
        };
        self.booked = Some((request, dates));
        let _ = self.talk.sink.ask(&Frame::Book(request, dates));
    }

    /// A true offer's send, received as under the other rule.
    fn book_by_other_rule(&mut self) {
        let request = self.request();
        let Ok(Dates([start, end, ..])) = self.talk.sink.look(request) else {
            return drop(self.talk.sink.ask(&Frame::DryRun(request)));
        };
        let other = Delays {
            rule: rules::other(self.rule.into()),
            window: self.contact.window,
            list: &self.contact.delays,
        };
        if let Ok(dates) = other.dates(start, end) {
            let _ = self.talk.sink.ask(&Frame::Book(request, dates));
        }
    }

    fn book_again(&mut self) {
        if let Some((request, dates)) = self.booked {
            let _ = self.talk.sink.ask(&Frame::Book(request, dates));
        }
    }

    /// Every boundary as the asked time, with one size.
    fn ask_all_boundaries(&mut self) {
        let load = self.request().load;
        for time in self.contact.boundaries.clone() {
            let _ = self.talk.sink.ask(&Frame::DryRun(Request { time, load }));
        }
    }

    /// Mostly from a boundary up to a boundary.
    fn request(&mut self) -> Request {
        let from = self.boundary();
        let to = self.boundary();
        let size = match self.talk.rng.below(6) {
            0 => 1,
            1 => self.contact.carried(from, from + 1),
            _ => self.contact.carried(from.min(to), from.max(to)),
        };
        let beside = match self.talk.rng.once_in(4) {
            true => self.talk.rng.between(-1, 1),
            false => 0,
        };
        Request {
            time: from.min(to).clamp(0, MAX_DATE),
            load: Load {
                size: size.saturating_add(beside).clamp(1, MAX_SIZE),
                priority: self.talk.rng.below(4) as u8,
            },
        }
    }

    /// Where a delay begins or ends, or a tick beside it.
    fn boundary(&mut self) -> i64 {
        let boundary = self.talk.rng.pick(&self.contact.boundaries);
        match self.talk.rng.once_in(5) {
            true => boundary + self.talk.rng.between(-1, 1),
            false => boundary,
        }
    }
}
