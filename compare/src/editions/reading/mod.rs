//! Document 01 with R-5's editions, R-4's rules and R-7's flag, read from the
//! documents' words alone.

pub mod capacity;
mod free;
pub mod opening;
mod priority;
pub mod record;

use super::calls::Calls;
use super::terms::{Field, Manager, Opening};
use crate::frames::{Dates, Request, Span};
use record::Record;

#[derive(Clone)]
pub struct Reading {
    manager: Manager,
    pub record: Option<Record>,
}

impl Reading {
    pub fn of(manager: Manager) -> Self {
        Reading {
            manager,
            record: None,
        }
    }

    fn open_record(&mut self) -> Result<&mut Record, u8> {
        self.record.as_mut().ok_or(1)
    }

    /// A record that is open and names an edition, a rule and a flag there are.
    fn whole_record(&mut self) -> Result<&Record, u8> {
        let record = self.open_record()?;
        record.test_choices()?;
        Ok(record)
    }
}

impl Calls for Reading {
    fn open(&mut self, opening: &Opening) -> Result<(), u8> {
        if let Some(number) = opening::refusal(opening) {
            return Err(number);
        }
        self.record = Some(Record::opened(self.manager, opening));
        Ok(())
    }

    fn dry_run(&mut self, request: Request) -> Result<Dates, u8> {
        self.open_record()?.dry_run(request)
    }

    fn book(&mut self, request: Request, stated: Dates) -> Result<(), u8> {
        self.open_record()?.book(request, stated)
    }

    fn list(&mut self) -> Result<Vec<Span>, u8> {
        Ok(self.whole_record()?.list.clone())
    }

    fn room(&mut self) -> Result<i64, u8> {
        Ok(self.whole_record()?.room())
    }

    /// What it lists keeps the rules of either edition, as no volume is above the
    /// exact capacity, and its delays those of either rule, as they cover.
    fn write(&mut self, field: Field) -> Result<(), u8> {
        let record = self.open_record()?;
        match field {
            Field::Edition(edition) => record.edition = edition,
            Field::Rule(rule) => record.rule = rule,
            Field::Strict(strict) => record.strict = strict,
        }
        record.test_choices()
    }
}
