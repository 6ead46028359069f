//! A-SABR's `ContactManager` over the proved managers, so that its
//! `Contact<CM>` runs on them.
//!
//! An adapted manager is made of what the original's constructor takes; the
//! window comes with `try_init`, as there. Numbers outside document 01's limits
//! are refused: `try_init` answers `false`, a dry run `None`, a booking an
//! error that names the reason.

use asabr::bundle::Bundle;
use asabr::contact::ContactInfo;
use asabr::contact_manager::segmentation::Segment;
use asabr::contact_manager::{ContactManager, ContactManagerTxData};
use asabr::errors::ASABRError;
use asabr::types::{DataRate, Date, Duration, TimeInterval};
use howrekano::{DelaySegment, Interval, Manager, Offer, RateSegment, Record, Refusal, record};
pub use oracle::asabr;

pub mod doors;
mod managers;

/// A manager of the proved library behind the original's trait.
#[derive(Clone)]
pub enum Adapted<R: Adapts> {
    /// Made, but its contact is not known yet.
    Made(R::Parts),
    Open(Manager<R>),
}

/// What the adapter needs of each manager.
pub trait Adapts: Record + Clone {
    /// What the original's constructor takes.
    type Parts: Clone;

    fn open(window: Interval, parts: &Self::Parts) -> Result<Manager<Self>, Refusal>;

    fn window(&self) -> Interval;

    /// A time at which a dry run answers with these dates, if they are on offer
    /// at all, or the tick after such a time. `schedule_tx` does not carry the
    /// time that was asked, and the send start serves: all listed time before it
    /// is passed over, and the later of it and the chosen start is itself.
    fn asked(&self, _bundle: howrekano::Bundle, offer: Offer) -> u64 {
        offer.send.start
    }

    fn enqueue(_manager: &mut Manager<Self>, _bundle: howrekano::Bundle) -> Result<(), Refusal> {
        Err(Refusal::SELF_UPDATE)
    }

    fn dequeue(_manager: &mut Manager<Self>, _bundle: howrekano::Bundle) -> Result<(), Refusal> {
        Err(Refusal::SELF_UPDATE)
    }
}

/// Rates and delays, or a polynomial and delays, or a queue's figures.
#[derive(Clone)]
pub struct Rated {
    pub rates: Vec<RateSegment>,
    pub delays: Vec<DelaySegment>,
}

#[derive(Clone)]
pub struct Polynomial {
    pub polynome: howrekano::Polynome,
    pub delays: Vec<DelaySegment>,
}

#[derive(Clone)]
pub struct Queueing {
    pub rate: u64,
    pub delay: u64,
    pub classes: usize,
    pub flags: howrekano::Flags,
    pub budgets: Vec<u64>,
}

impl<R: Adapts> Adapted<R> {
    pub fn made(parts: R::Parts) -> Self {
        Adapted::Made(parts)
    }

    /// The manager, once its contact is known.
    pub fn manager(&self) -> Option<&Manager<R>> {
        match self {
            Adapted::Made(_) => None,
            Adapted::Open(manager) => Some(manager),
        }
    }

    /// The manager of a contact with this lifespan.
    fn of(&self, lifespan: TimeInterval) -> Result<&Manager<R>, Refusal> {
        let manager = self.manager().ok_or(Refusal::RECORD)?;
        is_window(lifespan, manager)?;
        Ok(manager)
    }
}

/// The original takes the window anew at each call; here it is the one opened.
fn is_window<R: Adapts>(lifespan: TimeInterval, manager: &Manager<R>) -> Result<(), Refusal> {
    match interval(lifespan) == Some(manager.record().window()) {
        true => Ok(()),
        false => Err(Refusal::WINDOW),
    }
}

impl<R: Adapts> ContactManager for Adapted<R> {
    fn dry_run_tx(
        &self,
        contact_lifespan: TimeInterval,
        at_time: Date,
        bundle: &Bundle,
    ) -> Option<ContactManagerTxData> {
        let manager = self.of(contact_lifespan).ok()?;
        let offer = manager.dry_run(number(at_time)?, load(bundle)?).ok()?;
        Some(ContactManagerTxData {
            send: time_interval(offer.send),
            recv: time_interval(offer.recv),
        })
    }

    fn schedule_tx(
        &mut self,
        contact_lifespan: TimeInterval,
        tx_data: ContactManagerTxData,
        bundle: &Bundle,
    ) -> Result<(), ASABRError> {
        self.schedule(contact_lifespan, tx_data, bundle)
            .map_err(|refusal| ASABRError::ScheduleError(refusal.meaning()))
    }

    fn manual_enqueue(&mut self, bundle: &Bundle) -> bool {
        match (self, load(bundle)) {
            (Adapted::Open(manager), Some(load)) => R::enqueue(manager, load).is_ok(),
            _ => false,
        }
    }

    fn manual_dequeue(&mut self, bundle: &Bundle) -> bool {
        match (self, load(bundle)) {
            (Adapted::Open(manager), Some(load)) => R::dequeue(manager, load).is_ok(),
            _ => false,
        }
    }

    fn try_init(&mut self, contact_data: &ContactInfo) -> bool {
        let Adapted::Made(parts) = self else {
            return false;
        };
        let lifespan = TimeInterval {
            start: contact_data.start,
            end: contact_data.end,
        };
        let opened = interval(lifespan).and_then(|window| R::open(window, parts).ok());
        match opened {
            Some(manager) => {
                *self = Adapted::Open(manager);
                true
            }
            None => false,
        }
    }
}

impl<R: Adapts> Adapted<R> {
    fn schedule(
        &mut self,
        lifespan: TimeInterval,
        dates: ContactManagerTxData,
        bundle: &Bundle,
    ) -> Result<(), Refusal> {
        let Adapted::Open(manager) = self else {
            return Err(Refusal::RECORD);
        };
        is_window(lifespan, manager)?;
        let load = load(bundle).ok_or(Refusal::BUNDLE)?;
        let offer = offer(dates).ok_or(Refusal::NOT_OFFERED)?;
        let asked = manager.record().asked(load, offer);
        match manager.book(asked, load, offer) {
            // The priority manager passes over an empty segment at the send
            // start when asked there, but not when asked the tick before.
            Err(Refusal::NOT_OFFERED) => manager.book(asked.saturating_sub(1), load, offer),
            answer => answer,
        }
    }
}

// ---------------------------------------------------------------------------
// The original's numbers and ours

fn number(value: i128) -> Option<u64> {
    value.try_into().ok()
}

fn interval(from: TimeInterval) -> Option<Interval> {
    Some(Interval {
        start: number(from.start)?,
        end: number(from.end)?,
    })
}

fn time_interval(from: Interval) -> TimeInterval {
    TimeInterval {
        start: from.start.into(),
        end: from.end.into(),
    }
}

fn offer(from: ContactManagerTxData) -> Option<Offer> {
    Some(Offer {
        send: interval(from.send)?,
        recv: interval(from.recv)?,
    })
}

fn load(bundle: &Bundle) -> Option<howrekano::Bundle> {
    Some(howrekano::Bundle {
        size: number(bundle.size)?,
        priority: bundle.priority.try_into().ok()?,
    })
}

impl Rated {
    /// From what the original's constructor takes; `None` where a number is
    /// negative or above 64 bits.
    pub fn new(rates: &[Segment<DataRate>], delays: &[Segment<Duration>]) -> Option<Self> {
        let rates = rates.iter().map(|segment| {
            Some(RateSegment {
                start: number(segment.start)?,
                end: number(segment.end)?,
                rate: number(segment.val)?,
            })
        });
        Some(Rated {
            rates: rates.collect::<Option<_>>()?,
            delays: delay_segments(delays)?,
        })
    }
}

impl Polynomial {
    /// From the original's coefficients, offset and delays.
    pub fn new(coefficients: [i64; 4], offset: Date, delays: &[Segment<Duration>]) -> Option<Self> {
        Some(Polynomial {
            polynome: howrekano::Polynome {
                coefficients,
                offset: number(offset)?,
            },
            delays: delay_segments(delays)?,
        })
    }
}

fn delay_segments(from: &[Segment<Duration>]) -> Option<Vec<DelaySegment>> {
    let delays = from.iter().map(|segment| {
        Some(DelaySegment {
            start: number(segment.start)?,
            end: number(segment.end)?,
            delay: number(segment.val)?,
        })
    });
    delays.collect()
}

pub type FreeVolume = Adapted<record::FreeVolume>;
pub type PrioritySeg = Adapted<record::PrioritySeg>;
pub type PolySeg = Adapted<record::PolySeg>;
pub type Queue = Adapted<record::Queue>;
