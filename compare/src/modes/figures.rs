//! What was called and how it was answered, as figures.

use std::fmt;

use super::claims::Held;
use super::terms::{Call, EXACT};
use crate::rules::LATER;
use crate::trial::choices::{Chosen, Flag};
use crate::trial::tally::Tally;
use crate::trial::words::grouped;
use crate::trial::{Counted, choices};

/// The mode of the record that was called, or of the opening.
type Mode = u64;
/// The rule of the same.
type Rule = u64;

#[derive(Clone, Copy, Debug, PartialEq, Eq, PartialOrd, Ord)]
pub enum Sort {
    Opening,
    DryRun,
    Booking,
    List,
    Write,
}

impl Sort {
    pub fn of(call: &Call) -> Self {
        match call {
            Call::Open(_) => Sort::Opening,
            Call::DryRun(_) => Sort::DryRun,
            Call::Book(..) => Sort::Booking,
            Call::List => Sort::List,
            Call::Write(_) => Sort::Write,
        }
    }

    fn name(self) -> &'static str {
        match self {
            Sort::Opening => "openings",
            Sort::DryRun => "dry runs",
            Sort::Booking => "bookings",
            Sort::List => "lists",
            Sort::Write => "written over",
        }
    }
}

#[derive(Clone, Debug, Default, PartialEq, Eq)]
pub struct Figures {
    answers: Tally<(Mode, Sort)>,
    by_rule: Tally<(Rule, Sort)>,
    by_flag: Tally<(Flag, Sort)>,
    pub dialogues: usize,
    pub differences: usize,
    /// Segments of the longest list.
    pub longest_list: usize,
    /// Dry runs that the other mode answers otherwise, and the other rule.
    pub apart: usize,
    pub apart_by_rule: usize,
    pub claims: Claimed,
}

/// Offers and accepted bookings in mode 2 on which R-6's claims were held.
#[derive(Clone, Debug, Default, PartialEq, Eq)]
pub struct Claimed {
    pub held: usize,
    pub is_equal: usize,
    pub by_ticks: usize,
    pub is_first: usize,
}

impl Claimed {
    pub fn count(&mut self, held: Held) {
        self.held += 1;
        self.is_equal += usize::from(held.is_equal);
        self.by_ticks += usize::from(held.by_ticks);
        self.is_first += usize::from(held.is_first);
    }
}

impl Figures {
    pub fn count(&mut self, chosen: Chosen, sort: Sort, number: u8) {
        let (mode, rule) = (choices::counted(chosen.kind), choices::counted(chosen.rule));
        self.answers.count((mode, sort), number);
        self.by_rule.count((rule, sort), number);
        self.by_flag.count((Flag::of(chosen.strict), sort), number);
    }

    pub fn calls_of(&self, mode: Mode) -> usize {
        self.answers.of(|(called, _), _| called == mode)
    }

    /// How often a call of this sort on this mode's records got this number.
    pub fn answered(&self, mode: Mode, sort: Sort, number: u8) -> usize {
        let wanted = ((choices::counted(mode), sort), number);
        self.answers.of(|called, number| (called, number) == wanted)
    }

    pub fn calls_under(&self, rule: Rule) -> usize {
        self.by_rule.of(|called, _| called.0 == rule)
    }

    /// The same of this rule's records.
    pub fn answered_under(&self, rule: Rule, sort: Sort, number: u8) -> usize {
        let wanted = ((choices::counted(rule), sort), number);
        self.by_rule.of(|called, number| (called, number) == wanted)
    }

    pub fn calls_with(&self, flag: Flag) -> usize {
        self.by_flag.of(|called, _| called.0 == flag)
    }

    /// The same of records with this flag.
    pub fn answered_with(&self, flag: Flag, sort: Sort, number: u8) -> usize {
        let wanted = ((flag, sort), number);
        self.by_flag.of(|called, number| (called, number) == wanted)
    }

    fn lines(&self) -> [(&'static str, usize); 12] {
        let Claimed {
            held,
            is_equal,
            by_ticks,
            is_first,
        } = self.claims;
        [
            ("dialogues", self.dialogues),
            ("segments of the longest list", self.longest_list),
            ("dry runs that the other mode answers otherwise", self.apart),
            (
                "dry runs that the other rule answers otherwise",
                self.apart_by_rule,
            ),
            ("ends in mode 2 with enough exact capacity", held),
            ("  one tick earlier has less", held - is_equal),
            ("  exactly the size", is_equal),
            ("  by ticks and half ticks too", by_ticks),
            (
                "  the first tick with enough, at rates above zero",
                is_first,
            ),
            ("calls in mode 2", self.calls_of(EXACT)),
            ("calls under rule 2", self.calls_under(LATER)),
            ("calls with the strict flag", self.calls_with(Flag::On)),
        ]
    }
}

impl Counted for Figures {
    fn calls(&self) -> usize {
        self.answers.all()
    }

    fn dialogues(&mut self) -> &mut usize {
        &mut self.dialogues
    }

    fn differences(&mut self) -> &mut usize {
        &mut self.differences
    }
}

impl fmt::Display for Figures {
    fn fmt(&self, text: &mut fmt::Formatter) -> fmt::Result {
        for ((mode, sort), answers) in self.answers.lines() {
            let mode = choices::named("mode", mode);
            writeln!(text, "{mode}, {}: {answers}", sort.name())?;
        }
        for ((rule, sort), answers) in self.by_rule.lines() {
            let rule = choices::named("rule", rule);
            writeln!(text, "{rule}, {}: {answers}", sort.name())?;
        }
        for ((flag, sort), answers) in self.by_flag.lines() {
            writeln!(text, "{}, {}: {answers}", flag.name(), sort.name())?;
        }
        for (about, count) in self.lines() {
            writeln!(text, "{about}: {}", grouped(count))?;
        }
        write!(
            text,
            "compared {} calls, {} differences",
            grouped(self.calls()),
            self.differences
        )
    }
}
