//! Document 01's queue manager with R-7's flag, read from the documents' words
//! alone. The other managers' readings are those of.

pub mod calls;
pub mod opening;
pub mod record;
pub mod terms;

use crate::frames::{Dates, Load, Request};
use calls::Calls;
use record::Record;
use terms::{Field, Opening};

#[derive(Clone, Default)]
pub struct Reading {
    pub record: Option<Record>,
}

impl Reading {
    fn open_record(&mut self) -> Result<&mut Record, u8> {
        self.record.as_mut().ok_or(1)
    }
}

impl Calls for Reading {
    fn open(&mut self, opening: &Opening) -> Result<(), u8> {
        if let Some(number) = opening::refusal(opening) {
            return Err(number);
        }
        self.record = Some(Record::opened(opening));
        Ok(())
    }

    fn dry_run(&mut self, request: Request) -> Result<Dates, u8> {
        self.open_record()?.dry_run(request)
    }

    fn book(&mut self, request: Request, stated: Dates) -> Result<(), u8> {
        self.open_record()?.book(request, stated)
    }

    fn list(&mut self) -> Result<Vec<i64>, u8> {
        let record = self.open_record()?;
        record.test()?;
        Ok(record.listed().to_vec())
    }

    fn enqueue(&mut self, load: Load) -> Result<(), u8> {
        self.open_record()?.enqueue(load)
    }

    fn dequeue(&mut self, load: Load) -> Result<(), u8> {
        self.open_record()?.dequeue(load)
    }

    fn write(&mut self, field: Field) -> Result<(), u8> {
        let record = self.open_record()?;
        record.write(field);
        record.test()
    }
}
