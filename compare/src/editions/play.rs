//! One dialogue: every call to the reading and to the calls under test, and
//! demand 3's sums on what the latter answer.

use super::calls::{Calls, ask};
use super::figures::{Figures, Sort};
use super::reading::Reading;
use super::sums::Sums;
use super::terms::{Call, Dialogue, FIRST, Field, Manager, Opening, SECOND};
use crate::frames::{Dates, Request};
use crate::rules;
use crate::trial::answers::{About, Difference, Said, compared};
use crate::trial::choices::Chosen;

/// Plays a dialogue up to the first difference.
pub fn play<C: Calls>(
    dialogue: &Dialogue,
    tested: &mut C,
    figures: &mut Figures,
) -> Option<Difference<Call>> {
    let mut table = Table {
        manager: dialogue.manager,
        reading: Reading::of(dialogue.manager),
        tested,
        sums: None,
        figures,
    };
    let mut calls = dialogue.calls.iter().enumerate();
    calls.find_map(|(place, call)| {
        let about = table.turn(call).err()?;
        Some(Difference { place, about })
    })
}

struct Table<'a, C> {
    manager: Manager,
    reading: Reading,
    tested: &'a mut C,
    sums: Option<Sums>,
    figures: &'a mut Figures,
}

impl<C: Calls> Table<'_, C> {
    fn turn(&mut self, call: &Call) -> Result<(), About<Call>> {
        let answered = self.compare(call)?;
        let is_done = answered == Said::Number(0);
        match call {
            Call::Open(opening) if is_done => self.begin(opening),
            // Nothing is promised of the sums where the edition or the flag changes.
            Call::Write(Field::Edition(_) | Field::Strict(_)) => self.sums = None,
            Call::DryRun(request) => {
                self.hold_length(&answered)?;
                self.count_apart(*request, &answered);
            }
            Call::Book(request, dates) => self.after_booking(*request, *dates, is_done)?,
            _ => {}
        }
        Ok(())
    }

    fn compare(&mut self, call: &Call) -> Result<Said, About<Call>> {
        let expected = ask(&mut self.reading, call);
        let answered = ask(self.tested, call);
        let chosen = self.chosen_by(call);
        let number = expected.number();
        self.figures
            .count(self.manager, chosen, Sort::of(call), number);
        compared(call, expected, answered)
    }

    fn chosen_by(&self, call: &Call) -> Chosen {
        match call {
            Call::Open(opening) => opening.chosen(),
            _ => self.chosen(),
        }
    }

    fn chosen(&self) -> Chosen {
        let record = self.reading.record.as_ref();
        record.map_or(Chosen::NOTHING, |it| it.chosen())
    }

    fn begin(&mut self, opening: &Opening) {
        self.sums = match self.manager {
            Manager::Free => Sums::of(opening),
            Manager::Priority => None,
        };
    }

    /// Under edition 2 no offer of either manager has zero length.
    fn hold_length(&self, answered: &Said) -> Result<(), About<Call>> {
        let edition = self.chosen().kind;
        match answered {
            Said::Offer(Dates([start, end, ..])) if edition == SECOND && start >= end => {
                Err(About::Claim(format!("send {start},{end} has no length")))
            }
            _ => Ok(()),
        }
    }

    /// Does the choice of edition decide this dry run, or that of the rule? A
    /// record that breaks its rules is left out.
    fn count_apart(&mut self, request: Request, answered: &Said) {
        let Some(record) = &mut self.reading.record else {
            return;
        };
        if record.test_choices().is_err() {
            return;
        }
        let own = record.edition;
        record.edition = if own == FIRST { SECOND } else { FIRST };
        let by_edition = Said::with(record.dry_run(request), Said::Offer);
        record.edition = own;
        let own = record.rule;
        record.rule = rules::other(own);
        let by_rule = Said::with(record.dry_run(request), Said::Offer);
        record.rule = own;
        self.figures.apart += usize::from(by_edition != *answered);
        self.figures.apart_by_rule += usize::from(by_rule != *answered);
    }

    fn after_booking(
        &mut self,
        request: Request,
        dates: Dates,
        is_done: bool,
    ) -> Result<(), About<Call>> {
        let listed = self.compare(&Call::List)?;
        let room = match self.manager {
            Manager::Free => self.compare(&Call::Room)?,
            Manager::Priority => Said::Number(0),
        };
        if let Said::Listed(listed) = &listed {
            self.figures.longest_list = self.figures.longest_list.max(listed.len());
        }
        match is_done {
            true => self.hold_sums(request, dates, &listed, &room),
            false => Ok(()),
        }
    }

    fn hold_sums(
        &mut self,
        request: Request,
        dates: Dates,
        listed: &Said,
        room: &Said,
    ) -> Result<(), About<Call>> {
        let (Some(sums), Said::Listed(listed), Said::Room(room)) = (&mut self.sums, listed, room)
        else {
            return Ok(());
        };
        sums.book(request.load.size, dates).map_err(About::Claim)?;
        sums.see(listed, *room).map_err(About::Claim)?;
        self.figures.count_sums(self.chosen().kind);
        Ok(())
    }
}
