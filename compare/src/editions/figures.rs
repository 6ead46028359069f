//! What was called and how it was answered, as figures.

use std::fmt;

use super::terms::{Call, Manager, SECOND};
use crate::rules::LATER;
use crate::trial::choices::{Chosen, Flag};
use crate::trial::tally::Tally;
use crate::trial::words::grouped;
use crate::trial::{Counted, choices};

/// The edition of the record that was called, or of the opening.
type Edition = u64;
/// The rule of the same.
type Rule = u64;

#[derive(Clone, Copy, Debug, PartialEq, Eq, PartialOrd, Ord)]
pub enum Sort {
    Opening,
    DryRun,
    Booking,
    List,
    Room,
    Write,
}

impl Sort {
    pub fn of(call: &Call) -> Self {
        match call {
            Call::Open(_) => Sort::Opening,
            Call::DryRun(_) => Sort::DryRun,
            Call::Book(..) => Sort::Booking,
            Call::List => Sort::List,
            Call::Room => Sort::Room,
            Call::Write(_) => Sort::Write,
        }
    }

    fn name(self) -> &'static str {
        match self {
            Sort::Opening => "openings",
            Sort::DryRun => "dry runs",
            Sort::Booking => "bookings",
            Sort::List => "lists",
            Sort::Room => "rooms",
            Sort::Write => "written over",
        }
    }
}

/// Manager, edition and sort of call.
type Called = (&'static str, Edition, Sort);

#[derive(Clone, Debug, Default, PartialEq, Eq)]
pub struct Figures {
    answers: Tally<Called>,
    by_rule: Tally<(Rule, Sort)>,
    by_flag: Tally<(Flag, Sort)>,
    pub dialogues: usize,
    pub differences: usize,
    /// Segments of the longest list.
    pub longest_list: usize,
    /// Dry runs that the other edition answers otherwise, and the other rule.
    pub apart: usize,
    pub apart_by_rule: usize,
    /// Bookings after which demand 3's sums were held, and under edition 2.
    pub sums: usize,
    pub sums_second: usize,
}

impl Figures {
    pub fn count(&mut self, manager: Manager, chosen: Chosen, sort: Sort, number: u8) {
        let manager = match manager {
            Manager::Free => "free volume",
            Manager::Priority => "priority",
        };
        let called = (manager, choices::counted(chosen.kind), sort);
        self.answers.count(called, number);
        let rule = choices::counted(chosen.rule);
        self.by_rule.count((rule, sort), number);
        self.by_flag.count((Flag::of(chosen.strict), sort), number);
    }

    pub fn count_sums(&mut self, edition: Edition) {
        self.sums += 1;
        self.sums_second += usize::from(edition == SECOND);
    }

    pub fn calls_of(&self, edition: Edition) -> usize {
        self.answers.of(|called, _| called.1 == edition)
    }

    /// How often a call of this sort on this edition's records got this number,
    /// from either manager.
    pub fn answered(&self, edition: Edition, sort: Sort, number: u8) -> usize {
        let wanted = (choices::counted(edition), sort, number);
        self.answers
            .of(|called, number| (called.1, called.2, number) == wanted)
    }

    pub fn calls_under(&self, rule: Rule) -> usize {
        self.by_rule.of(|called, _| called.0 == rule)
    }

    /// The same of this rule's records.
    pub fn answered_under(&self, rule: Rule, sort: Sort, number: u8) -> usize {
        let wanted = ((choices::counted(rule), sort), number);
        self.by_rule.of(|called, number| (called, number) == wanted)
    }

    pub fn calls_with(&self, flag: Flag) -> usize {
        self.by_flag.of(|called, _| called.0 == flag)
    }

    /// The same of records with this flag.
    pub fn answered_with(&self, flag: Flag, sort: Sort, number: u8) -> usize {
        let wanted = ((flag, sort), number);
        self.by_flag.of(|called, number| (called, number) == wanted)
    }

    fn lines(&self) -> [(&'static str, usize); 8] {
        [
            ("dialogues", self.dialogues),
            ("segments of the longest list", self.longest_list),
            (
                "dry runs that the other edition answers otherwise",
                self.apart,
            ),
            (
                "dry runs that the other rule answers otherwise",
                self.apart_by_rule,
            ),
            ("bookings after which demand 3's sums were held", self.sums),
            ("  under edition 2", self.sums_second),
            ("calls under rule 2", self.calls_under(LATER)),
            ("calls with the strict flag", self.calls_with(Flag::On)),
        ]
    }
}

impl Counted for Figures {
    fn calls(&self) -> usize {
        self.answers.all()
    }

    fn dialogues(&mut self) -> &mut usize {
        &mut self.dialogues
    }

    fn differences(&mut self) -> &mut usize {
        &mut self.differences
    }
}

impl fmt::Display for Figures {
    fn fmt(&self, text: &mut fmt::Formatter) -> fmt::Result {
        for ((manager, edition, sort), answers) in self.answers.lines() {
            let (edition, sort) = (choices::named("edition", edition), sort.name());
            writeln!(text, "{manager}, {edition}, {sort}: {answers}")?;
        }
        for ((rule, sort), answers) in self.by_rule.lines() {
            let (rule, sort) = (choices::named("rule", rule), sort.name());
            writeln!(text, "{rule}, {sort}: {answers}")?;
        }
        for ((flag, sort), answers) in self.by_flag.lines() {
            writeln!(text, "{}, {}: {answers}", flag.name(), sort.name())?;
        }
        for (about, count) in self.lines() {
            writeln!(text, "{about}: {}", grouped(count))?;
        }
        write!(
            text,
            "compared {} calls, {} of them under edition 2, {} differences",
            grouped(self.calls()),
            grouped(self.calls_of(SECOND)),
            self.differences
        )
    }
}
