//! The same contact with the other flag, held beside the one under test: "Every
//! other call answers, and alters the record, exactly as with the flag off". The
//! calls under test answer for both; the reading has no part in it.

use super::calls::Calls;
use super::flag::{self, ON, ZERO_LENGTH};
use super::terms::{Call, Field, Manager};
use crate::trial::answers::Said;

pub struct Twin<C> {
    manager: Manager,
    calls: C,
    /// Whether its record is that of the other, but for the flag.
    is_alike: bool,
}

/// What has been held of a call.
#[derive(Clone, Copy, Debug, PartialEq, Eq)]
pub enum Held {
    /// There is no twin, or nothing is said of it.
    Nothing,
    Alike,
    /// The one under test answers 17, and its twin this number.
    Refused(u8),
    /// The twin answers 17, and the one under test this number.
    ByTwin(u8),
}

impl<C: Calls> Twin<C> {
    /// With nothing open.
    pub fn of(manager: Manager, calls: C) -> Self {
        Twin {
            manager,
            calls,
            is_alike: false,
        }
    }

    /// After a call to a record with this flag.
    pub fn hold(&mut self, strict: u64, call: &Call, answered: &Said) -> Result<Held, String> {
        match call {
            Call::Open(opening) if !flag::is_flag(opening.strict()) => Ok(Held::Nothing),
            Call::Open(opening) => {
                let other = opening.with(flag::other(opening.strict()));
                let held = self.compare(&Call::Open(other), answered)?;
                self.is_alike |= answered.number() == 0;
                Ok(held)
            }
            _ if !self.is_alike => Ok(Held::Nothing),
            Call::Write(field) => self.hold_written(strict, *field, answered),
            // The other one's flag is none, and its answers are all 1.
            _ if !flag::is_flag(strict) => Ok(Held::Nothing),
            Call::Book(..) => self.hold_booking(strict, call, answered),
            _ => self.compare(call, answered),
        }
    }

    fn compare(&mut self, call: &Call, answered: &Said) -> Result<Held, String> {
        let said = self.calls.ask(call);
        match said == *answered {
            true => Ok(Held::Alike),
            false => Err(told(call, &said, answered)),
        }
    }

    /// Twins have different flags. While the other one's is none, nothing of what
    /// is written can be compared.
    fn hold_written(&mut self, strict: u64, field: Field, answered: &Said) -> Result<Held, String> {
        let call = match field.strict() {
            Some(written) if !flag::is_flag(written) => return Ok(Held::Nothing),
            Some(written) => Call::Write(Field::flag(self.manager, flag::other(written))),
            None => Call::Write(field),
        };
        if !flag::is_flag(strict) {
            self.calls.ask(&call);
            return Ok(Held::Nothing);
        }
        self.compare(&call, answered)
    }

    /// What the strict one of the two refuses with 17 the other one answers as if
    /// there were no flag. The booking is made on a copy where the strict one is
    /// the one under test; where it is the twin, the two are twins no longer.
    fn hold_booking(&mut self, strict: u64, call: &Call, answered: &Said) -> Result<Held, String> {
        if strict == ON && answered.number() == ZERO_LENGTH {
            let said = self.calls.clone().ask(call);
            return Ok(Held::Refused(without_flag(call, &said)?));
        }
        let said = self.calls.ask(call);
        if said == *answered {
            return Ok(Held::Alike);
        }
        if strict == ON || said.number() != ZERO_LENGTH {
            return Err(told(call, &said, answered));
        }
        self.is_alike = answered.number() != 0;
        Ok(Held::ByTwin(without_flag(call, answered)?))
    }
}

/// What the flag off answers where the strict one answers 17: that stands after 9
/// and before 10 and 13, and is for equal send dates alone.
fn without_flag(call: &Call, off: &Said) -> Result<u8, String> {
    let has_no_length = matches!(call, Call::Book(_, stated) if flag::has_no_length(*stated));
    match off.number() {
        number @ (0 | 10 | 13) if has_no_length => Ok(number),
        _ => Err(format!("17 where the flag off answers {off}: {call}")),
    }
}

fn told(call: &Call, said: &Said, answered: &Said) -> String {
    format!("the twin answers {said} and not {answered}: {call}")
}
