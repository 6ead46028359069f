//! The priority manager: the whole window, and what each stretch is booked for.

use crate::choices::Choices;
use crate::free::opening;
use crate::manager::Manager;
use crate::record::{self, used};
use crate::refusal::Refusal;
use crate::segments::{BookingSegment, DelaySegment, Interval, RateSegment};

/// The priority manager.
///
/// ```
/// use howrekano::{Bundle, DelaySegment, Interval, PrioritySeg, RateSegment};
///
/// let window = Interval { start: 0, end: 10 };
/// let rates = [RateSegment { start: 0, end: 10, rate: 10 }];
/// let delays = [DelaySegment { start: 0, end: 10, delay: 3 }];
/// let mut contact = PrioritySeg::open(window, &rates, &delays)?;
///
/// let bundle = Bundle { size: 30, priority: 1 };
/// let offer = contact.dry_run(2, bundle)?;
/// contact.book(2, bundle, offer)?;
/// let booked: Vec<_> = contact.list().iter().map(|s| (s.start, s.end, s.priority())).collect();
/// assert_eq!(booked, [(0, 2, None), (2, 5, Some(1)), (5, 10, None)]);
///
/// // a higher priority may take that time
/// let urgent = Bundle { size: 30, priority: 2 };
/// assert_eq!(contact.dry_run(0, urgent)?.send, Interval { start: 0, end: 3 });
/// # Ok::<(), howrekano::Refusal>(())
/// ```
///
/// # The earliest place
///
/// While no listed stretch is empty, an offer starts at the first tick there
/// is: the least one, not before the asked time and inside the window, from
/// which the bundle has an end by the window's end, and from which every instant
/// up to that end, the start itself included, is booked below its priority. A
/// [`Refusal::NO_OFFER`] says that there is none. This is proved for both editions
/// of the end rule (see [`Choices`]), for every such record and every bundle, of
/// the library's calls that this type makes; and the offer is the same when it
/// is asked for again, at any time up to its start.
///
/// Under edition 1 a bundle that is smaller than what one tick carries is sent in
/// no time, and booking it inside a stretch lists an empty one. Then a tick can be
/// offered that is booked, or a start be hidden, as here. Under edition 2 every
/// send has a length, and [the strict flag](Choices#the-strict-flag) refuses to book
/// one that has none, so that no booking adds an empty stretch; that is proved too.
///
/// ```
/// # use howrekano::{Bundle, DelaySegment, Interval, PrioritySeg, RateSegment, Refusal};
/// # let window = Interval { start: 0, end: 2 };
/// let rates = [RateSegment { start: 0, end: 2, rate: 2 }];
/// # let delays = [DelaySegment { start: 0, end: 2, delay: 0 }];
/// let mut contact = PrioritySeg::open(window, &rates, &delays)?;
/// let is_first_start_told = |c: &PrioritySeg| c.list().iter().all(|s| s.start < s.end);
/// assert!(is_first_start_told(&contact));
/// let all = Bundle { size: 4, priority: 0 };
/// assert_eq!(contact.dry_run(0, all)?.send, Interval { start: 0, end: 2 });
///
/// let small = Bundle { size: 1, priority: 0 };
/// let offer = contact.dry_run(1, small)?;                 // sent from 1 to 1
/// contact.book(1, small, offer)?;
/// assert!(!is_first_start_told(&contact));                // [1,1) is listed
/// assert_eq!(contact.dry_run(0, all), Err(Refusal::NO_OFFER)); // though both ticks are free
///
/// # use howrekano::Choices;
/// let second = Choices { edition: 2, ..Choices::default() };
/// let mut contact = PrioritySeg::open_with(second, window, &rates, &delays)?;
/// let offer = contact.dry_run(1, small)?;                 // sent from 1 to 2
/// contact.book(1, small, offer)?;
/// assert!(contact.list().iter().all(|s| s.start < s.end)); // [0,1) and [1,2) are listed
///
/// let strict = Choices { strict: 1, ..Choices::default() };
/// let mut contact = PrioritySeg::open_with(strict, window, &rates, &delays)?;
/// let offer = contact.dry_run(1, small)?;                 // from 1 to 1, not to be booked
/// assert_eq!(contact.book(1, small, offer), Err(Refusal::ZERO_LENGTH));
/// assert_eq!(contact.dry_run(0, all)?.send, Interval { start: 0, end: 2 });
/// # Ok::<(), howrekano::Refusal>(())
/// ```
pub type PrioritySeg = Manager<record::PrioritySeg>;

impl PrioritySeg {
    /// Opens a contact whose rates, and delays, cover exactly its window, with
    /// the original's choices.
    pub fn open(
        window: Interval,
        rates: &[RateSegment],
        delays: &[DelaySegment],
    ) -> Result<Self, Refusal> {
        Self::open_with(Choices::default(), window, rates, delays)
    }

    /// [`PrioritySeg::open`] with these choices.
    pub fn open_with(
        choices: Choices,
        window: Interval,
        rates: &[RateSegment],
        delays: &[DelaySegment],
    ) -> Result<Self, Refusal> {
        Manager::opened(&opening(choices, window, rates, delays))
    }

    /// What the contact was opened with.
    pub fn choices(&self) -> Choices {
        self.record().contact.choices
    }

    /// The window's stretches, in order, each with what it is booked for.
    pub fn list(&self) -> &[BookingSegment] {
        let bookings = &self.record().bookings;
        used(&bookings.segments, bookings.count)
    }
}
