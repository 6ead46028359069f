//! What a dialogue in the making does with offers: asks for them, books them,
//! and books what is beside them, late, or for another bundle.

use super::altered;
use crate::frames::{Dates, Request, Span, Window};
use crate::generate::rng::Rng;

/// So many requests are looked at before one is booked, as most of what is asked
/// at random is not offered.
const TRIES: usize = 4;

/// A date where a delay begins or ends; without delays the window's end.
pub fn boundary(rng: &mut Rng, delays: &[Span], window: Window) -> i64 {
    match delays.is_empty() {
        true => window.end,
        false => {
            let delay = rng.pick(delays);
            rng.pick(&[delay.start, delay.end])
        }
    }
}

/// A dialogue that is made along with the reading.
pub trait Offers {
    fn rng(&mut self) -> &mut Rng;
    /// For the record that is open, about what decides an answer.
    fn request(&mut self) -> Request;
    /// What the reading offers.
    fn look(&mut self, request: Request) -> Option<Dates>;
    /// What was offered so far, still good or not.
    fn known(&mut self) -> &mut Vec<(Request, Dates)>;
    fn ask_dry_run(&mut self, request: Request);
    fn ask_booking(&mut self, request: Request, stated: Dates);

    /// What is offered, and kept for later.
    fn offered(&mut self, request: Request) -> Option<Dates> {
        let dates = self.look(request)?;
        self.known().push((request, dates));
        Some(dates)
    }

    fn dry_run(&mut self) {
        let request = self.request();
        self.offered(request);
        self.ask_dry_run(request);
    }

    fn book(&mut self) {
        let mut request = self.request();
        for _ in 0..TRIES {
            if self.look(request).is_some() {
                break;
            }
            request = self.request();
        }
        self.book_this(request);
    }

    /// What is offered, or the dry run that says that nothing is.
    fn book_this(&mut self, request: Request) {
        match self.offered(request) {
            Some(dates) => self.ask_booking(request, dates),
            None => self.ask_dry_run(request),
        }
    }

    /// A true offer with one date wrong.
    fn book_beside(&mut self) {
        let request = self.request();
        let stated = match self.offered(request) {
            Some(offered) => altered::dates(self.rng(), offered),
            None => Dates([0; 4]),
        };
        self.ask_booking(request, stated);
    }

    /// An offer from before.
    fn book_late(&mut self) {
        let count = self.known().len();
        if count == 0 {
            return self.dry_run();
        }
        let place = self.rng().below(count);
        let (request, dates) = self.known()[place];
        self.ask_booking(request, dates);
    }

    /// A true offer's dates for another bundle or time.
    fn book_otherwise(&mut self) {
        let request = self.request();
        let Some(dates) = self.offered(request) else {
            return self.dry_run();
        };
        let request = altered::request(self.rng(), request);
        self.ask_booking(request, dates);
    }

    /// Outside the limits: 2, also where the dates are no offer's.
    fn ask_outside(&mut self, stated: Dates) {
        let request = self.request();
        let request = altered::outside(self.rng(), request);
        match self.rng().once_in(2) {
            true => self.ask_dry_run(request),
            false => self.ask_booking(request, stated),
        }
    }
}
