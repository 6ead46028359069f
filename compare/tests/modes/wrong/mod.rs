//! Programs that are wrong in one way each, and are seen.

mod ends;
mod flaw;
mod range;
mod records;

use oracle::frames::{Dates, Request, Span};
use oracle::modes::calls::Calls;
use oracle::modes::dialogues::Modes;
use oracle::modes::reading::record::{Record, Send};
use oracle::modes::terms::{Field, Opening, PORTED, is_mode};
use oracle::modes::{Settings, check};
use oracle::rules::EARLIER;
use oracle::strict::flag;
use oracle::trial::Counted;

use crate::lookups::Lookup;
pub use flaw::Flaw;

/// The reading with one flaw.
pub struct Wrong {
    flaw: Flaw,
    record: Option<Record>,
}

impl Wrong {
    pub fn of(flaw: Flaw) -> Self {
        Wrong { flaw, record: None }
    }

    /// As the program reads it.
    fn read(&self) -> Result<Record, u8> {
        let record = self.record.as_ref().ok_or(1)?;
        Ok(records::read(self.flaw, record))
    }

    fn found_to_book(&self, request: Request) -> Result<(Send, Dates), u8> {
        let mut booked = Wrong {
            flaw: self.flaw,
            record: self.record.clone(),
        };
        if let (Flaw::BooksPorted, Some(record)) = (self.flaw, &mut booked.record)
            && is_mode(record.opening.mode)
        {
            record.opening.mode = PORTED;
        }
        booked.found(request)
    }

    fn found(&self, request: Request) -> Result<(Send, Dates), u8> {
        let record = self.read()?;
        records::test_both(self.flaw, &record, request)?;
        let send = ends::find(self.flaw, &record, request).ok_or(7)?;
        Ok((send, ends::dates(self.flaw, &record, send)?))
    }
}

impl Calls for Wrong {
    fn open(&mut self, opening: &Opening) -> Result<(), u8> {
        let opening = records::opening(self.flaw, opening)?;
        self.record = Some(Record::opened(&opening));
        Ok(())
    }

    fn dry_run(&mut self, request: Request) -> Result<Dates, u8> {
        Ok(self.found(request)?.1)
    }

    fn book(&mut self, request: Request, stated: Dates) -> Result<(), u8> {
        let (send, dates) = self.found_to_book(request).map_err(|number| match number {
            7 if self.flaw == Flaw::NotOfferedIsSeven => 7,
            7 | 8 => 9,
            _ => number,
        })?;
        if !ends::is_same(self.flaw, dates, stated) {
            return Err(9);
        }
        flag::test(self.read()?.opening.strict, stated)?;
        let list = records::cut(self.flaw, &self.read()?, send);
        if list.len() > records::most_listed(self.flaw) {
            return Err(10);
        }
        let record = self.record.as_mut().ok_or(1)?;
        record.list = list;
        match self.flaw {
            Flaw::Forgets => record.opening.mode = PORTED,
            Flaw::ForgetsRule => record.opening.rule = EARLIER,
            _ => {}
        }
        Ok(())
    }

    fn list(&mut self) -> Result<Vec<Span>, u8> {
        let record = self.read()?;
        records::test(self.flaw, &record)?;
        Ok(record.list)
    }

    fn write(&mut self, field: Field) -> Result<(), u8> {
        let record = self.record.as_mut().ok_or(1)?;
        field.write(&mut record.opening);
        records::test(self.flaw, &self.read()?)
    }
}

const CALLS: usize = 100_000;

/// Without a flaw the program is the reading.
#[test]
fn no_flaw_is_not_seen() {
    let outcome = seen(Flaw::None, 1);
    assert!(outcome.is_none(), "{}", outcome.unwrap());
}

#[test]
fn each_flaw_is_seen() {
    let mut unseen = Vec::new();
    let lookups = Lookup::ALL.map(Flaw::Looks);
    for flaw in Flaw::ALL.iter().chain(&lookups) {
        for seed in [1, 2, 3] {
            if seen(*flaw, seed).is_none() {
                unseen.push((flaw, seed));
            }
        }
    }
    assert!(unseen.is_empty(), "{unseen:?}");
    println!("{} flaws seen", Flaw::ALL.len() + lookups.len());
}

/// What is printed of a flaw, if it is seen.
fn seen(flaw: Flaw, seed: u64) -> Option<String> {
    let settings = Settings {
        calls: CALLS,
        seed,
        modes: Modes::Both,
    };
    let outcome = check(&settings, || Wrong::of(flaw));
    let found = outcome.found.map(|found| found.to_string());
    if let Some(found) = &found {
        println!("{flaw:?}, {} calls\n{found}", outcome.figures.calls());
    }
    found
}
