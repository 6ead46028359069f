//! One dialogue: every call to the reading and to the calls under test, and
//! R-6's claims on what the latter answer.

use super::calls::{Calls, ask};
use super::claims::Claims;
use super::figures::{Figures, Sort};
use super::reading::Reading;
use super::reading::record::Record;
use super::terms::{Call, Dialogue, EXACT, PORTED};
use crate::frames::{Dates, Request};
use crate::rules;
use crate::trial::answers::{About, Difference, Said, compared};
use crate::trial::choices::Chosen;

/// Plays a dialogue up to the first difference.
pub fn play<C: Calls>(
    dialogue: &Dialogue,
    tested: &mut C,
    figures: &mut Figures,
) -> Option<Difference<Call>> {
    let mut table = Table {
        reading: Reading::default(),
        tested,
        claims: None,
        figures,
    };
    let mut calls = dialogue.calls.iter().enumerate();
    calls.find_map(|(place, call)| {
        let about = table.turn(call).err()?;
        Some(Difference { place, about })
    })
}

struct Table<'a, C> {
    reading: Reading,
    tested: &'a mut C,
    /// Of the record that is open, if it is whole and in mode 2.
    claims: Option<Claims>,
    figures: &'a mut Figures,
}

impl<C: Calls> Table<'_, C> {
    fn turn(&mut self, call: &Call) -> Result<(), About<Call>> {
        let answered = self.compare(call)?;
        match (call, &answered) {
            (Call::Open(_), Said::Number(0)) | (Call::Write(_), _) => self.renew_claims(),
            (Call::DryRun(request), _) => {
                self.count_apart(*request, &answered);
                if let Said::Offer(dates) = answered {
                    self.hold_claims(*request, dates)?;
                }
            }
            (Call::Book(request, dates), _) => {
                if answered == Said::Number(0) {
                    self.hold_claims(*request, *dates)?;
                }
                self.list_after_booking()?;
            }
            _ => {}
        }
        Ok(())
    }

    fn compare(&mut self, call: &Call) -> Result<Said, About<Call>> {
        let expected = ask(&mut self.reading, call);
        let answered = ask(self.tested, call);
        let chosen = match call {
            Call::Open(opening) => opening.chosen(),
            _ => self.chosen(),
        };
        self.figures
            .count(chosen, Sort::of(call), expected.number());
        compared(call, expected, answered)
    }

    fn chosen(&self) -> Chosen {
        let record = self.reading.record.as_ref();
        record.map_or(Chosen::NOTHING, |it| it.opening.chosen())
    }

    fn renew_claims(&mut self) {
        let whole = self
            .reading
            .record
            .as_ref()
            .filter(|record| record.test().is_ok());
        self.claims = whole.and_then(|record| Claims::of(&record.opening));
    }

    fn hold_claims(&mut self, request: Request, offered: Dates) -> Result<(), About<Call>> {
        if let Some(claims) = &self.claims {
            let held = claims.hold(request.load.size, offered);
            self.figures.claims.count(held.map_err(About::Claim)?);
        }
        Ok(())
    }

    /// Does the choice of mode decide this dry run, or that of the rule? What
    /// breaks its rules, or would with the other choice, is left out.
    fn count_apart(&mut self, request: Request, answered: &Said) {
        let Some(record) = self.reading.record.as_ref() else {
            return;
        };
        if record.test().is_err() {
            return;
        }
        let (mut by_mode, mut by_rule) = (record.clone(), record.clone());
        by_mode.opening.mode = match record.opening.mode == EXACT {
            true => PORTED,
            false => EXACT,
        };
        by_rule.opening.rule = rules::other(record.opening.rule);
        let is_apart = |other: &Record| {
            let said = Said::with(other.dry_run(request), Said::Offer);
            other.test().is_ok() && said != *answered
        };
        self.figures.apart += usize::from(is_apart(&by_mode));
        self.figures.apart_by_rule += usize::from(is_apart(&by_rule));
    }

    fn list_after_booking(&mut self) -> Result<(), About<Call>> {
        if let Said::Listed(listed) = self.compare(&Call::List)? {
            self.figures.longest_list = self.figures.longest_list.max(listed.len());
        }
        Ok(())
    }
}
