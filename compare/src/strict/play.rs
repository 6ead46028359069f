//! One dialogue: every call to the reading, to the calls under test and to their
//! twin, and what R-7 says of the answers of the latter two.

use super::calls::Calls;
use super::claims::{self, Fresh};
use super::figures::{Figures, Sort};
use super::flag;
use super::reading::Reading;
use super::terms::{Call, Dialogue, Manager};
use super::twins::Twin;
use crate::frames::{Dates, Request};
use crate::trial::answers::{About, Difference, Said, compared};
use crate::trial::choices::Chosen;

/// Plays a dialogue up to the first difference. `make` gives the calls of a
/// manager with nothing open: once for those under test and once for their twin.
pub fn play<C: Calls>(
    dialogue: &Dialogue,
    make: impl Fn(Manager) -> C,
    figures: &mut Figures,
) -> Option<Difference<Call>> {
    let manager = dialogue.manager;
    let mut table = Table {
        manager,
        reading: Reading::of(manager),
        tested: make(manager),
        twin: Twin::of(manager, make(manager)),
        fresh: None,
        figures,
    };
    let mut calls = dialogue.calls.iter().enumerate();
    calls.find_map(|(place, call)| {
        let about = table.turn(call).err()?;
        Some(Difference { place, about })
    })
}

struct Table<'a, C> {
    manager: Manager,
    reading: Reading,
    tested: C,
    twin: Twin<C>,
    /// Of the record that is open, if nothing was written into it.
    fresh: Option<Fresh>,
    figures: &'a mut Figures,
}

impl<C: Calls> Table<'_, C> {
    fn turn(&mut self, call: &Call) -> Result<(), About<Call>> {
        let answered = self.compare(call)?;
        match call {
            Call::Open(opening) if answered == Said::Number(0) => {
                self.fresh = Some(Fresh::of(self.manager, opening));
            }
            Call::Write(_) => self.fresh = None,
            Call::DryRun(_) => self.count_shown(&answered),
            Call::List => self
                .hold_listed(&answered, &Said::Number(0))
                .map_err(About::Claim)?,
            Call::Book(request, stated) => self.after_booking(*request, *stated, &answered)?,
            _ => {}
        }
        Ok(())
    }

    /// With the reading, and with the twin.
    fn compare(&mut self, call: &Call) -> Result<Said, About<Call>> {
        let expected = self.reading.ask(call);
        let answered = self.tested.ask(call);
        let chosen = self.chosen_by(call);
        self.figures
            .count(self.manager, chosen, Sort::of(call), expected.number());
        let answered = compared(call, expected, answered)?;
        let strict = self.reading.chosen().strict;
        let held = self.twin.hold(strict, call, &answered);
        self.figures
            .twins
            .count(self.manager, held.map_err(About::Claim)?);
        Ok(answered)
    }

    fn chosen_by(&self, call: &Call) -> Chosen {
        match call {
            Call::Open(opening) => opening.chosen(),
            _ => self.reading.chosen(),
        }
    }

    fn count_shown(&mut self, answered: &Said) {
        let strict = self.reading.chosen().strict;
        if let Said::Offer(offered) = answered {
            let is_shown = claims::is_shown(strict, *offered);
            self.figures.claims.shown += usize::from(is_shown);
        }
    }

    fn after_booking(
        &mut self,
        request: Request,
        stated: Dates,
        answered: &Said,
    ) -> Result<(), About<Call>> {
        let number = answered.number();
        self.hold_number(stated, number).map_err(About::Claim)?;
        if number == 0 {
            self.hold_booked(request, stated).map_err(About::Claim)?;
        }
        let listed = self.compare(&Call::List)?;
        let room = match self.manager {
            Manager::Free => self.compare(&Call::Room)?,
            _ => Said::Number(0),
        };
        self.hold_listed(&listed, &room).map_err(About::Claim)
    }

    fn hold_number(&mut self, stated: Dates, number: u8) -> Result<(), String> {
        let Chosen { kind, strict, .. } = self.reading.chosen();
        claims::hold_number(self.manager, kind, number)?;
        let claims = &mut self.figures.claims;
        if strict == flag::ON {
            let is_unoffered = number == 9 && flag::has_no_length(stated);
            claims.unoffered += usize::from(is_unoffered);
            claims.never_empty += usize::from(claims::never_empty(self.manager, kind));
        }
        Ok(())
    }

    fn hold_booked(&mut self, request: Request, stated: Dates) -> Result<(), String> {
        let strict = self.reading.chosen().strict;
        let has_length = claims::hold_length(strict, stated)?;
        self.figures.claims.lengths += usize::from(has_length);
        if let Some(fresh) = &mut self.fresh {
            let is_bound = fresh.book(request, stated)?;
            self.figures.claims.ticks += usize::from(is_bound);
        }
        Ok(())
    }

    fn hold_listed(&mut self, listed: &Said, room: &Said) -> Result<(), String> {
        let Said::Listed(listed) = listed else {
            return Ok(());
        };
        self.figures.longest_list = self.figures.longest_list.max(listed.len());
        let Some(fresh) = &self.fresh else {
            return Ok(());
        };
        if let Said::Room(room) = room {
            fresh.see_free(listed, *room)?;
        }
        let is_filled = fresh.see(listed)?;
        self.figures.claims.filled += usize::from(is_filled);
        Ok(())
    }
}
