//! Document 01's polynomial manager with R-6's mode, R-4's rule and R-7's flag,
//! read from the documents' words alone.

pub mod capacity;
pub mod fraction;
pub mod opening;
pub mod record;
pub mod search;

use super::calls::Calls;
use super::terms::{Field, Opening};
use crate::frames::{Dates, Request, Span};
use record::Record;

#[derive(Clone, Default)]
pub struct Reading {
    pub record: Option<Record>,
}

impl Reading {
    fn open_record(&mut self) -> Result<&mut Record, u8> {
        self.record.as_mut().ok_or(1)
    }
}

impl Calls for Reading {
    fn open(&mut self, opening: &Opening) -> Result<(), u8> {
        if let Some(number) = opening::refusal(opening) {
            return Err(number);
        }
        self.record = Some(Record::opened(opening));
        Ok(())
    }

    fn dry_run(&mut self, request: Request) -> Result<Dates, u8> {
        self.open_record()?.dry_run(request)
    }

    fn book(&mut self, request: Request, stated: Dates) -> Result<(), u8> {
        self.open_record()?.book(request, stated)
    }

    fn list(&mut self) -> Result<Vec<Span>, u8> {
        let record = self.open_record()?;
        record.test()?;
        Ok(record.list.clone())
    }

    /// What is listed rests on the window alone, and stays as it was.
    fn write(&mut self, field: Field) -> Result<(), u8> {
        let record = self.open_record()?;
        field.write(&mut record.opening);
        record.test()
    }
}
