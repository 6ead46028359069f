//! Flaws of flags that are none, in openings and in records.

use oracle::modes::reading::record::{load_in_limits, test_request};
use oracle::strict::calls::Calls;
use oracle::strict::flag::{OFF, ON, is_flag};
use oracle::strict::terms::{Call, Field, Manager, Opening};
use oracle::trial::answers::Said;

use super::Wrong;
use super::flaw::Flaw;

impl Wrong {
    // -----------------------------------------------------------------------
    // Openings

    pub fn open(&mut self, opening: &Opening) -> Said {
        let strict = self.read(opening.strict());
        let rest = self.without_flag(opening);
        let refused = match self.flaw {
            _ if is_flag(strict) => None,
            Flaw::AfterThree if rest == 3 => Some(rest),
            Flaw::Last | Flaw::QueueFourteen if rest != 0 && self.is_of_flaw() => Some(rest),
            Flaw::QueueFourteen if self.is_of_flaw() => Some(14),
            Flaw::NoneIsOne => Some(1),
            _ => None,
        };
        let said = match refused {
            Some(number) => Said::Number(number),
            None => self.reading.ask(&Call::Open(opening.with(strict))),
        };
        if self.flaw == Flaw::RefusedLeavesFlag && said.number() != 0 && is_flag(strict) {
            self.put_flag(strict);
        }
        said
    }

    /// What an opening is answered but for its flag.
    fn without_flag(&self, opening: &Opening) -> u8 {
        let plain = Call::Open(opening.with(OFF));
        self.reading.clone().ask(&plain).number()
    }

    fn is_of_flaw(&self) -> bool {
        self.flaw != Flaw::QueueFourteen || self.manager == Manager::Queue
    }

    /// A stated flag as the program reads it.
    fn read(&self, strict: u64) -> u64 {
        let takes_any = match self.flaw {
            Flaw::AnyIsStrict => true,
            Flaw::PolyTakesAny => self.manager == Manager::Poly,
            Flaw::QueueTakesAny => self.manager == Manager::Queue,
            _ => false,
        };
        match (self.flaw, strict) {
            (Flaw::TwoIsStrict, 2) => ON,
            (Flaw::TwoIsOff, 2) => OFF,
            (Flaw::LowByte, strict) => strict & 0xff,
            (Flaw::LowHalf, strict) => strict & 0xffff_ffff,
            (_, strict) if takes_any && !is_flag(strict) => ON,
            (_, strict) => strict,
        }
    }

    // -----------------------------------------------------------------------
    // Records

    /// A record's flag as the program reads it.
    fn read_kept(&self, strict: u64) -> u64 {
        match self.flaw {
            _ if is_flag(strict) => strict,
            Flaw::DamagedIsStrict => ON,
            Flaw::DamagedIsOff => OFF,
            _ => self.read(strict),
        }
    }

    /// What is answered of a record whose flag is none, where it is not 1.
    pub fn ask_damaged(&mut self, call: &Call) -> Option<Said> {
        let own = self.flag();
        // With nothing open there is no flag.
        if is_flag(own) || self.would_say(OFF, &Call::List).number() == 1 {
            return None;
        }
        let read = self.read_kept(own);
        match self.flaw {
            _ if is_flag(read) => Some(self.ask_as(read, call)),
            Flaw::DamagedIsTwo => Some(Said::Number(2)),
            Flaw::BundleFirst if is_outside(call) => Some(Said::Number(2)),
            Flaw::DamagedLists if *call == Call::List => Some(self.ask_as(OFF, call)),
            _ => None,
        }
    }

    pub fn write(&mut self, field: Field) -> Said {
        let written = Call::Write(field);
        let said = self.reading.ask(&written);
        let own = self.flag();
        let read = self.read_kept(own);
        if is_flag(own) || self.would_say(OFF, &Call::List).number() == 1 {
            return said;
        }
        match self.flaw {
            _ if is_flag(read) => Said::Number(0),
            Flaw::DamagedIsTwo => Said::Number(2),
            _ => said,
        }
    }
}

fn is_outside(call: &Call) -> bool {
    match call {
        Call::DryRun(request) | Call::Book(request, _) => test_request(*request).is_err(),
        Call::Enqueue(load) | Call::Dequeue(load) => !load_in_limits(*load),
        _ => false,
    }
}
