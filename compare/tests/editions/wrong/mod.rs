//! Programs that are wrong in one way each, and are seen.

mod flaw;
mod offers;
mod records;

use oracle::editions::calls::Calls;
use oracle::editions::dialogues::Editions;
use oracle::editions::reading::Reading;
use oracle::editions::reading::record::{Record, Send};
use oracle::editions::terms::{Field, Manager, Opening};
use oracle::editions::{Settings, check};
use oracle::frames::{Dates, Request, Span};
use oracle::strict::flag;
use oracle::trial::Counted;

use crate::lookups::Lookup;
pub use flaw::Flaw;

/// The reading with one flaw.
pub struct Wrong {
    flaw: Flaw,
    manager: Manager,
    reading: Reading,
    /// What is booked since the opening.
    sizes: i64,
}

impl Wrong {
    pub fn of(flaw: Flaw, manager: Manager) -> Self {
        Wrong {
            flaw,
            manager,
            reading: Reading::of(manager),
            sizes: 0,
        }
    }

    fn record(&self) -> Result<&Record, u8> {
        self.reading.record.as_ref().ok_or(1)
    }

    fn found(&self, request: Request) -> Result<(Send, Dates), u8> {
        let record = self.record()?;
        records::test(self.flaw, record, request)?;
        let record = &records::read(self.flaw, record);
        let send = offers::find(self.flaw, record, request).ok_or(7)?;
        Ok((send, offers::dates(self.flaw, record, send)?))
    }
}

impl Calls for Wrong {
    fn open(&mut self, opening: &Opening) -> Result<(), u8> {
        let opening = records::opening(self.flaw, opening, self.manager)?;
        self.reading.open(&opening)?;
        self.sizes = 0;
        Ok(())
    }

    fn dry_run(&mut self, request: Request) -> Result<Dates, u8> {
        Ok(self.found(request)?.1)
    }

    fn book(&mut self, request: Request, stated: Dates) -> Result<(), u8> {
        let (send, dates) = self.found(request).map_err(|number| match number {
            1 | 2 => number,
            _ => 9,
        })?;
        if !offers::is_same(self.flaw, dates, stated) {
            return Err(9);
        }
        let record = records::read(self.flaw, self.record()?);
        flag::test(record.strict, stated)?;
        let list = records::cut(self.flaw, &record, send, request.load);
        if list.len() > records::most_listed(self.flaw) {
            return Err(10);
        }
        self.sizes += request.load.size;
        let record = self.reading.record.as_mut().ok_or(1)?;
        record.list = list;
        records::after_booking(self.flaw, record);
        Ok(())
    }

    fn list(&mut self) -> Result<Vec<Span>, u8> {
        let record = records::read(self.flaw, self.record()?);
        records::test_choices(self.flaw, &record)?;
        Ok(record.list)
    }

    fn room(&mut self) -> Result<i64, u8> {
        let record = records::read(self.flaw, self.record()?);
        records::test_choices(self.flaw, &record)?;
        Ok(records::room(self.flaw, &record, self.sizes))
    }

    fn write(&mut self, field: Field) -> Result<(), u8> {
        let record = self.reading.record.as_mut().ok_or(1)?;
        match field {
            Field::Edition(edition) => record.edition = edition,
            Field::Rule(rule) => record.rule = rule,
            Field::Strict(strict) => record.strict = strict,
        }
        records::test_choices(self.flaw, &records::read(self.flaw, record))
    }
}

const CALLS: usize = 60_000;

/// Without a flaw the program is the reading.
#[test]
fn no_flaw_is_not_seen() {
    let outcome = seen(Flaw::None, 1);
    assert!(outcome.is_none(), "{}", outcome.unwrap());
}

#[test]
fn each_flaw_is_seen() {
    let lookups = Lookup::ALL.map(Flaw::Looks);
    for flaw in Flaw::ALL.iter().chain(&lookups) {
        for seed in [1, 2, 3] {
            let found = seen(*flaw, seed);
            assert!(found.is_some(), "{flaw:?} is not seen");
        }
    }
    println!("{} flaws seen", Flaw::ALL.len() + lookups.len());
}

/// What is printed of a flaw, if it is seen.
fn seen(flaw: Flaw, seed: u64) -> Option<String> {
    let settings = Settings {
        calls: CALLS,
        seed,
        editions: Editions::Both,
    };
    let outcome = check(&settings, |manager| Wrong::of(flaw, manager));
    let found = outcome.found.map(|found| found.to_string());
    if let Some(found) = &found {
        println!("{flaw:?}, {} calls\n{found}", outcome.figures.calls());
    }
    found
}
