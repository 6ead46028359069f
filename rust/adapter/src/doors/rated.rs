//! The free-volume and the priority manager, whose records name their edition.

use std::fmt::Debug;

use howrekano::{
    Choices, DelaySegment, FreeVolume, Interval, Manager, PrioritySeg, RateSegment, Record,
    Refusal, record,
};
use oracle::editions::calls::Calls;
use oracle::editions::terms::{Field, Manager as Which, Opening};
use oracle::frames::{Dates, Request, Span};

use super::{Held, agreed, delay, placed, volume, window, word};

/// Either of the two, called through both doors.
#[derive(Clone)]
pub enum Rated {
    Free(Tested<record::FreeVolume>),
    Priority(Tested<record::PrioritySeg>),
}

impl Rated {
    /// With nothing open.
    pub fn of(which: Which) -> Self {
        match which {
            Which::Free => Rated::Free(Tested(Held::Nothing)),
            Which::Priority => Rated::Priority(Tested(Held::Nothing)),
        }
    }

    fn calls(&mut self) -> &mut dyn Calls {
        match self {
            Rated::Free(tested) => tested,
            Rated::Priority(tested) => tested,
        }
    }
}

impl Calls for Rated {
    fn open(&mut self, opening: &Opening) -> Result<(), u8> {
        self.calls().open(opening)
    }

    fn dry_run(&mut self, request: Request) -> Result<Dates, u8> {
        self.calls().dry_run(request)
    }

    fn book(&mut self, request: Request, stated: Dates) -> Result<(), u8> {
        self.calls().book(request, stated)
    }

    fn list(&mut self) -> Result<Vec<Span>, u8> {
        self.calls().list()
    }

    fn room(&mut self) -> Result<i64, u8> {
        self.calls().room()
    }

    fn write(&mut self, field: Field) -> Result<(), u8> {
        self.calls().write(field)
    }
}

/// What is open, and called through both doors.
#[derive(Clone)]
pub struct Tested<R: Editioned>(Held<R>);

/// What the calls need of each manager.
pub trait Editioned: Record<Opening = record::Opening> + Debug {
    fn open(given: &Given) -> Result<Manager<Self>, Refusal>;
    /// With no choice stated.
    fn open_plain(given: &Given) -> Result<Manager<Self>, Refusal>;
    fn choices(&mut self) -> &mut Choices;
    fn kept_list(manager: &Manager<Self>) -> Vec<Span>;
    fn total_list(&self) -> Result<Vec<Span>, Refusal>;
    fn kept_room(manager: &Manager<Self>) -> u64;
    fn total_room(&self) -> Result<u64, Refusal>;
}

impl Editioned for record::FreeVolume {
    fn open(given: &Given) -> Result<Manager<Self>, Refusal> {
        FreeVolume::open_with(given.choices, given.window, &given.rates, &given.delays)
    }

    fn open_plain(given: &Given) -> Result<Manager<Self>, Refusal> {
        FreeVolume::open(given.window, &given.rates, &given.delays)
    }

    fn choices(&mut self) -> &mut Choices {
        &mut self.contact.choices
    }

    fn kept_list(manager: &Manager<Self>) -> Vec<Span> {
        manager.list().iter().map(volume).collect()
    }

    fn total_list(&self) -> Result<Vec<Span>, Refusal> {
        let free = self.listed()?;
        Ok(free.segments.iter().take(free.count).map(volume).collect())
    }

    fn kept_room(manager: &Manager<Self>) -> u64 {
        manager.room()
    }

    fn total_room(&self) -> Result<u64, Refusal> {
        self.room_left()
    }
}

impl Editioned for record::PrioritySeg {
    fn open(given: &Given) -> Result<Manager<Self>, Refusal> {
        PrioritySeg::open_with(given.choices, given.window, &given.rates, &given.delays)
    }

    fn open_plain(given: &Given) -> Result<Manager<Self>, Refusal> {
        PrioritySeg::open(given.window, &given.rates, &given.delays)
    }

    fn choices(&mut self) -> &mut Choices {
        &mut self.contact.choices
    }

    fn kept_list(manager: &Manager<Self>) -> Vec<Span> {
        manager.list().iter().map(booking).collect()
    }

    fn total_list(&self) -> Result<Vec<Span>, Refusal> {
        let bookings = self.listed()?;
        let used = bookings.segments.iter().take(bookings.count);
        Ok(used.map(booking).collect())
    }

    /// It lists no volumes, and is not asked.
    fn kept_room(_manager: &Manager<Self>) -> u64 {
        0
    }

    fn total_room(&self) -> Result<u64, Refusal> {
        Ok(0)
    }
}

impl<R: Editioned> Calls for Tested<R> {
    fn open(&mut self, opening: &Opening) -> Result<(), u8> {
        let given = Given::of(opening);
        let kept = R::open(&given);
        given.hold_choices(kept)?;
        self.0.open(kept, R::opened(&given.figures()))
    }

    fn dry_run(&mut self, request: Request) -> Result<Dates, u8> {
        self.0.dry_run(request)
    }

    fn book(&mut self, request: Request, stated: Dates) -> Result<(), u8> {
        self.0.book(request, stated)
    }

    fn list(&mut self) -> Result<Vec<Span>, u8> {
        self.0
            .look("lists", |it| Ok(R::kept_list(it)), R::total_list)
    }

    fn room(&mut self) -> Result<i64, u8> {
        let room = self
            .0
            .look("rooms", |it| Ok(R::kept_room(it)), R::total_room)?;
        Ok(room as i64)
    }

    fn write(&mut self, field: Field) -> Result<(), u8> {
        self.0.rewrite(|record| match field {
            Field::Edition(edition) => record.choices().edition = edition,
            Field::Rule(rule) => record.choices().rule = rule,
            Field::Strict(strict) => record.choices().strict = strict,
        })
    }
}

// ---------------------------------------------------------------------------
// The frames' numbers and the library's

/// An opening in the library's words.
pub struct Given {
    choices: Choices,
    window: Interval,
    rates: Vec<RateSegment>,
    delays: Vec<DelaySegment>,
}

impl Given {
    fn of(opening: &Opening) -> Self {
        let contact = &opening.contact;
        Given {
            choices: Choices {
                edition: opening.edition,
                rule: opening.rule,
                strict: opening.strict,
            },
            window: window(contact.window),
            rates: contact.rates.iter().map(rate).collect(),
            delays: contact.delays.iter().map(delay).collect(),
        }
    }

    /// The record names what was chosen, and the opening that chooses nothing is
    /// that of the default.
    fn hold_choices<R: Editioned>(&self, opened: Result<Manager<R>, Refusal>) -> Result<(), u8> {
        if let Ok(manager) = opened {
            let mut record = *manager.record();
            agreed("choices", Ok(*record.choices()), Ok(self.choices))?;
        }
        if self.choices == Choices::default() {
            let plain = R::open_plain(self);
            agreed("plain openings", Ok(plain), Ok(opened)).map(drop)?;
        }
        Ok(())
    }

    /// For the total door: the first places of each list, with the whole count.
    fn figures(&self) -> record::Opening {
        record::Opening {
            choices: self.choices,
            window: self.window,
            rates: placed(&self.rates),
            rate_count: self.rates.len(),
            delays: placed(&self.delays),
            delay_count: self.delays.len(),
        }
    }
}

fn rate(span: &Span) -> RateSegment {
    RateSegment {
        start: word(span.start),
        end: word(span.end),
        rate: word(span.value),
    }
}

/// -1 where nothing is booked.
fn booking(segment: &howrekano::BookingSegment) -> Span {
    Span {
        start: segment.start as i64,
        end: segment.end as i64,
        value: segment.priority().map_or(-1, i64::from),
    }
}
