//! Frames on standard input, answered by A-SABR's `Contact` over the adapted
//! managers: for `compare --program`.
//!
//! What is done, offered and listed goes through the trait. A `None`, a `false`
//! and an error carry no number, so the reason is asked of the manager itself.

use std::io;

use adapter::asabr::bundle::Bundle;
use adapter::asabr::contact::{Contact, ContactInfo};
use adapter::asabr::contact_manager::ContactManagerTxData;
use adapter::asabr::errors::ASABRError;
use adapter::asabr::types::{NodeID, TimeInterval};
use adapter::{Adapted, Adapts, Polynomial, Queueing, Rated};
use howrekano::{Flags, Interval, Manager, Polynome, Refusal, record};
use oracle::frames::{
    Content, Dates, Load, PolyOpening, QueueOpening, RatedOpening, Request, Span, Window, flag,
};
use oracle::refusal::Refusal as Number;
use oracle::state::{Opened, Openings, Record};
use oracle::{Oracle, serve};

const HELP: &str = "\
through_trait: reads document 01's frames on standard input, one a line, and writes
the answers of A-SABR's Contact over the proved managers. For compare --program.
";

fn main() -> io::Result<()> {
    if std::env::args().nth(1).is_some() {
        print!("{HELP}");
        return Ok(());
    }
    serve::stdin_to_stdout(Oracle::with(Openings {
        free: |opening| open::<record::FreeVolume>(opening.window, rated(opening)),
        priority: |opening| open::<record::PrioritySeg>(opening.window, rated(opening)),
        poly: |opening| open::<record::PolySeg>(opening.window, polynomial(opening)),
        queue: |opening| open::<record::Queue>(opening.window, queueing(opening)),
    }))
}

struct Held<R: Adapts>(Contact<Adapted<R>>);

fn open<R: Listed + 'static>(window: Window, parts: R::Parts) -> Opened {
    let info = ContactInfo::new(
        NodeID::from(0),
        NodeID::from(1),
        window.start.into(),
        window.end.into(),
    );
    match Contact::try_new(info, Adapted::<R>::made(parts.clone())) {
        Some((contact, ..)) => Ok(Box::new(Held(contact))),
        None => {
            let window = Interval {
                start: word(window.start),
                end: word(window.end),
            };
            Err(why(R::open(window, &parts).err()))
        }
    }
}

impl<R: Listed> Held<R> {
    fn manager(&self) -> Result<&Manager<R>, Number> {
        self.0.manager.manager().ok_or(Number::Fault)
    }
}

impl<R: Listed> Record for Held<R> {
    fn dry_run(&self, request: Request) -> Result<Dates, Number> {
        let bundle = bundle(request.load);
        match self.0.dry_run_tx(request.time.into(), &bundle) {
            Some(offer) => dates(offer),
            None => {
                let again = self
                    .manager()?
                    .dry_run(word(request.time), load(request.load));
                Err(why(again.err()))
            }
        }
    }

    fn book(&mut self, request: Request, stated: Dates) -> Result<(), Number> {
        match self.dry_run(request) {
            Ok(offered) if offered == stated => {}
            Err(Number::Bundle) => return Err(Number::Bundle),
            _ => return Err(Number::NotOffered),
        }
        let [start, end, recv_start, recv_end] = stated.0.map(i128::from);
        let data = ContactManagerTxData {
            send: TimeInterval { start, end },
            recv: TimeInterval {
                start: recv_start,
                end: recv_end,
            },
        };
        match self.0.schedule_tx(data, &bundle(request.load)) {
            Ok(()) => Ok(()),
            Err(ASABRError::ScheduleError(text)) => Err(named(text)),
            Err(_) => Err(Number::Fault),
        }
    }

    fn list(&self) -> Result<Content, Number> {
        Ok(R::content(self.manager()?))
    }

    /// The trait has no such call: it is asked of the manager.
    fn room(&self) -> Result<i64, Number> {
        R::room(self.manager()?)
    }

    fn enqueue(&mut self, asked: Load) -> Result<(), Number> {
        let mut copy = *self.manager()?;
        match self.0.manual_enqueue(&bundle(asked)) {
            true => Ok(()),
            false => Err(why(R::enqueue(&mut copy, load(asked)).err())),
        }
    }

    fn dequeue(&mut self, asked: Load) -> Result<(), Number> {
        let mut copy = *self.manager()?;
        match self.0.manual_dequeue(&bundle(asked)) {
            true => Ok(()),
            false => Err(why(R::dequeue(&mut copy, load(asked)).err())),
        }
    }
}

/// What frames 12 and 15 show of each manager.
trait Listed: Adapts {
    fn content(manager: &Manager<Self>) -> Content;

    /// Only the free-volume manager has one.
    fn room(_manager: &Manager<Self>) -> Result<i64, Number> {
        Err(Number::NotManual)
    }
}

impl Listed for record::FreeVolume {
    fn content(manager: &Manager<Self>) -> Content {
        spans(
            manager
                .list()
                .iter()
                .map(|s| (s.start, s.end, s.volume as i64)),
        )
    }

    fn room(manager: &Manager<Self>) -> Result<i64, Number> {
        Ok(manager.room() as i64)
    }
}

impl Listed for record::PrioritySeg {
    fn content(manager: &Manager<Self>) -> Content {
        let booked = |priority: Option<u8>| priority.map_or(-1, i64::from);
        spans(
            manager
                .list()
                .iter()
                .map(|s| (s.start, s.end, booked(s.priority()))),
        )
    }
}

impl Listed for record::PolySeg {
    fn content(manager: &Manager<Self>) -> Content {
        spans(
            manager
                .list()
                .iter()
                .map(|s| (s.start, s.end, s.volume as i64)),
        )
    }
}

impl Listed for record::Queue {
    fn content(manager: &Manager<Self>) -> Content {
        Content::Queues(manager.list().iter().map(|queue| *queue as i64).collect())
    }
}

fn spans(from: impl Iterator<Item = (u64, u64, i64)>) -> Content {
    let spans = from.map(|(start, end, value)| Span {
        start: start as i64,
        end: end as i64,
        value,
    });
    Content::Segments(spans.collect())
}

// ---------------------------------------------------------------------------
// The frames' numbers and the trait's

/// The 64 bits of a frame's number: a negative one is above every limit.
fn word(number: i64) -> u64 {
    number as u64
}

fn load(from: Load) -> howrekano::Bundle {
    howrekano::Bundle {
        size: word(from.size),
        priority: from.priority,
    }
}

fn bundle(from: Load) -> Bundle {
    Bundle {
        // A priority above 127 is negative here, and refused as such.
        priority: from.priority as i8,
        size: from.size.into(),
        expiration: i128::MAX,
    }
}

fn dates(offer: ContactManagerTxData) -> Result<Dates, Number> {
    let dates = [
        offer.send.start,
        offer.send.end,
        offer.recv.start,
        offer.recv.end,
    ];
    let dates = dates.map(|date| i64::try_from(date).ok());
    match dates {
        [Some(a), Some(b), Some(c), Some(d)] => Ok(Dates([a, b, c, d])),
        _ => Err(Number::Fault),
    }
}

fn rated(opening: &RatedOpening) -> Rated {
    Rated {
        rates: opening
            .rates
            .iter()
            .map(|s| howrekano::RateSegment {
                start: word(s.start),
                end: word(s.end),
                rate: word(s.value),
            })
            .collect(),
        delays: delays(&opening.delays),
    }
}

fn delays(from: &[Span]) -> Vec<howrekano::DelaySegment> {
    from.iter()
        .map(|s| howrekano::DelaySegment {
            start: word(s.start),
            end: word(s.end),
            delay: word(s.value),
        })
        .collect()
}

fn polynomial(opening: &PolyOpening) -> Polynomial {
    Polynomial {
        polynome: Polynome {
            coefficients: opening.coefficients,
            offset: word(opening.offset),
        },
        delays: delays(&opening.delays),
    }
}

fn queueing(opening: &QueueOpening) -> Queueing {
    Queueing {
        rate: word(opening.rate),
        delay: word(opening.delay),
        classes: opening.classes.into(),
        flags: Flags {
            add_delay: opening.flags & flag::ADDED_DELAY != 0,
            self_update: opening.flags & flag::SELF_UPDATE != 0,
            budgeted: opening.flags & flag::BUDGETED != 0,
        },
        budgets: opening.budgets.map(word).to_vec(),
    }
}

/// The number of a refusal. That a call was refused and now is not is a fault.
fn why(refusal: Option<Refusal>) -> Number {
    const NUMBERS: [Number; 14] = [
        Number::NothingOpen,
        Number::Bundle,
        Number::Window,
        Number::Rates,
        Number::Delays,
        Number::Volume,
        Number::NoOffer,
        Number::NoDelay,
        Number::NotOffered,
        Number::ListFull,
        Number::Polynomial,
        Number::NotManual,
        Number::QueueBound,
        Number::Classes,
    ];
    let number = refusal.map_or(0, Refusal::number);
    let known = NUMBERS.into_iter().find(|known| known.number() == number);
    known.unwrap_or(Number::Fault)
}

/// The adapter's errors carry the refusal's meaning.
fn named(text: &str) -> Number {
    let known = [
        Refusal::FULL,
        Refusal::QUEUE,
        Refusal::NOT_OFFERED,
        Refusal::BUNDLE,
    ];
    why(known.into_iter().find(|refusal| refusal.meaning() == text))
}
