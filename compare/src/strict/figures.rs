//! What was called and how it was answered, as figures.

use std::fmt;

use super::flag::ZERO_LENGTH;
use super::terms::{Call, Manager};
use super::twins::Held;
use crate::editions::terms::SECOND;
use crate::modes::terms::EXACT;
use crate::rules::LATER;
use crate::trial::Counted;
use crate::trial::choices::{Chosen, Flag};
use crate::trial::tally::Tally;
use crate::trial::words::grouped;

#[derive(Clone, Copy, Debug, PartialEq, Eq, PartialOrd, Ord)]
pub enum Sort {
    Opening,
    DryRun,
    Booking,
    List,
    Room,
    Enqueue,
    Dequeue,
    Write,
}

impl Sort {
    pub fn of(call: &Call) -> Self {
        match call {
            Call::Open(_) => Sort::Opening,
            Call::DryRun(_) => Sort::DryRun,
            Call::Book(..) => Sort::Booking,
            Call::List => Sort::List,
            Call::Room => Sort::Room,
            Call::Enqueue(_) => Sort::Enqueue,
            Call::Dequeue(_) => Sort::Dequeue,
            Call::Write(_) => Sort::Write,
        }
    }

    fn name(self) -> &'static str {
        match self {
            Sort::Opening => "openings",
            Sort::DryRun => "dry runs",
            Sort::Booking => "bookings",
            Sort::List => "lists",
            Sort::Room => "rooms",
            Sort::Enqueue => "enqueued",
            Sort::Dequeue => "dequeued",
            Sort::Write => "written over",
        }
    }
}

/// The flag is that of the record that was called, or of the opening.
type Called = (Manager, Flag, Sort);

#[derive(Clone, Debug, Default, PartialEq, Eq)]
pub struct Figures {
    answers: Tally<Called>,
    pub dialogues: usize,
    pub differences: usize,
    /// Segments of the longest list.
    pub longest_list: usize,
    /// Calls of what is beside the flag: edition 2, mode 2 and rule 2.
    pub second: usize,
    pub exact: usize,
    pub later: usize,
    pub twins: Twins,
    pub claims: Claimed,
}

/// What was held on twins.
#[derive(Clone, Debug, Default, PartialEq, Eq)]
pub struct Twins {
    /// Calls that both answered alike.
    pub alike: usize,
    /// What the twin with the flag off answered where the one under test answered
    /// 17, and the other way round.
    off: Tally<Manager>,
    by_twin: Tally<Manager>,
}

impl Twins {
    pub fn count(&mut self, manager: Manager, held: Held) {
        match held {
            Held::Nothing => {}
            Held::Alike => self.alike += 1,
            Held::Refused(number) => self.off.count(manager, number),
            Held::ByTwin(number) => self.by_twin.count(manager, number),
        }
    }

    /// How often the flag off answered this number where the strict one of the two
    /// answered 17.
    pub fn off(&self, manager: Manager, number: u8) -> usize {
        let wanted = (manager, number);
        let of = |tally: &Tally<Manager>| tally.of(|called, number| (called, number) == wanted);
        of(&self.off) + of(&self.by_twin)
    }
}

/// How often each claim was held.
#[derive(Clone, Debug, Default, PartialEq, Eq)]
pub struct Claimed {
    /// Dry runs under the flag that show an offer of zero length.
    pub shown: usize,
    /// Stated send dates that are equal and not offered, under the flag.
    pub unoffered: usize,
    /// Bookings under the flag, accepted with a length.
    pub lengths: usize,
    /// Bookings under the flag where no send is of zero length, none of them 17.
    pub never_empty: usize,
    /// Accepted bookings on strict free-volume records opened fresh.
    pub ticks: usize,
    /// Lists of strict priority records opened fresh.
    pub filled: usize,
}

impl Figures {
    pub fn count(&mut self, manager: Manager, chosen: Chosen, sort: Sort, number: u8) {
        let called = (manager, Flag::of(chosen.strict), sort);
        self.answers.count(called, number);
        let is_rated = manager.rated().is_some();
        self.second += usize::from(is_rated && chosen.kind == SECOND);
        self.exact += usize::from(manager == Manager::Poly && chosen.kind == EXACT);
        self.later += usize::from(chosen.rule == LATER);
    }

    pub fn calls_with(&self, flag: Flag) -> usize {
        self.answers.of(|called, _| called.1 == flag)
    }

    pub fn calls_of(&self, manager: Manager) -> usize {
        self.answers.of(|called, _| called.0 == manager)
    }

    /// How often a call of this sort on this manager's records with this flag got
    /// this number.
    pub fn answered(&self, manager: Manager, flag: Flag, sort: Sort, number: u8) -> usize {
        let wanted = ((manager, flag, sort), number);
        self.answers.of(|called, number| (called, number) == wanted)
    }

    /// Bookings with this number, of all managers.
    pub fn bookings(&self, number: u8) -> usize {
        let wanted = (Sort::Booking, number);
        self.answers
            .of(|called, number| (called.2, number) == wanted)
    }

    fn lines(&self) -> [(&'static str, usize); 14] {
        let Claimed {
            shown,
            unoffered,
            lengths,
            never_empty,
            ticks,
            filled,
        } = self.claims;
        let refused = self.bookings(ZERO_LENGTH);
        [
            ("dialogues", self.dialogues),
            ("segments of the longest list", self.longest_list),
            ("calls under edition 2", self.second),
            ("calls in mode 2", self.exact),
            ("calls under rule 2", self.later),
            ("calls that twins answered alike", self.twins.alike),
            ("strict dry runs that show a zero length", shown),
            (
                "strict bookings of a zero length that is not offered",
                unoffered,
            ),
            ("bookings answered 17", refused),
            ("  where there is no twin", refused - self.twins.off.all()),
            ("strict bookings accepted, each with a length", lengths),
            (
                "strict bookings of edition 2 and of polynomials, none 17",
                never_empty,
            ),
            (
                "bookings of strict fresh free volume, never more than ticks",
                ticks,
            ),
            (
                "lists of strict fresh priority records, no segment empty",
                filled,
            ),
        ]
    }
}

impl Counted for Figures {
    fn calls(&self) -> usize {
        self.answers.all()
    }

    fn dialogues(&mut self) -> &mut usize {
        &mut self.dialogues
    }

    fn differences(&mut self) -> &mut usize {
        &mut self.differences
    }
}

impl fmt::Display for Figures {
    fn fmt(&self, text: &mut fmt::Formatter) -> fmt::Result {
        for ((manager, flag, sort), answers) in self.answers.lines() {
            let (flag, sort) = (flag.name(), sort.name());
            writeln!(text, "{manager}, {flag}, {sort}: {answers}")?;
        }
        for (manager, answers) in self.twins.off.lines() {
            writeln!(text, "{manager}, 17, the twin with the flag off: {answers}")?;
        }
        for (manager, answers) in self.twins.by_twin.lines() {
            writeln!(text, "{manager}, flag off, the strict twin 17: {answers}")?;
        }
        for (about, count) in self.lines() {
            writeln!(text, "{about}: {}", grouped(count))?;
        }
        write!(
            text,
            "compared {} calls, {} of them strict, {} differences",
            grouped(self.calls()),
            grouped(self.calls_with(Flag::On)),
            self.differences
        )
    }
}
