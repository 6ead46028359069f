//! The free-volume manager: listed stretches of free time, each with the
//! volume it still carries.

use crate::choices::Choices;
use crate::manager::Manager;
use crate::record::{self, Opening, placed, used};
use crate::refusal::Refusal;
use crate::segments::{DelaySegment, Interval, RateSegment, VolumeSegment};

/// The free-volume manager.
///
/// ```
/// use howrekano::{Bundle, DelaySegment, FreeVolume, Interval, RateSegment};
///
/// let window = Interval { start: 0, end: 10 };
/// let rates = [RateSegment { start: 0, end: 10, rate: 10 }];
/// let delays = [DelaySegment { start: 0, end: 10, delay: 3 }];
/// let mut contact = FreeVolume::open(window, &rates, &delays)?;
///
/// let bundle = Bundle { size: 15, priority: 0 };
/// let offer = contact.dry_run(3, bundle)?;
/// assert_eq!((offer.send.start, offer.send.end), (3, 4));
/// assert_eq!((offer.recv.start, offer.recv.end), (6, 7));
///
/// contact.book(3, bundle, offer)?;
/// let free: Vec<_> = contact.list().iter().map(|s| (s.start, s.end, s.volume)).collect();
/// assert_eq!(free, [(0, 3, 30), (4, 10, 60)]);
/// assert_eq!(contact.room(), 90);
/// # Ok::<(), howrekano::Refusal>(())
/// ```
pub type FreeVolume = Manager<record::FreeVolume>;

impl FreeVolume {
    /// Opens a contact whose rates, and delays, cover exactly its window, with
    /// the original's choices.
    pub fn open(
        window: Interval,
        rates: &[RateSegment],
        delays: &[DelaySegment],
    ) -> Result<Self, Refusal> {
        Self::open_with(Choices::default(), window, rates, delays)
    }

    /// [`FreeVolume::open`] with these choices.
    pub fn open_with(
        choices: Choices,
        window: Interval,
        rates: &[RateSegment],
        delays: &[DelaySegment],
    ) -> Result<Self, Refusal> {
        Manager::opened(&opening(choices, window, rates, delays))
    }

    /// What the contact was opened with.
    pub fn choices(&self) -> Choices {
        self.record().contact.choices
    }

    /// The free stretches, in order.
    pub fn list(&self) -> &[VolumeSegment] {
        let free = &self.record().free;
        used(&free.segments, free.count)
    }
}

pub(crate) fn opening(
    choices: Choices,
    window: Interval,
    rates: &[RateSegment],
    delays: &[DelaySegment],
) -> Opening {
    Opening {
        choices,
        window,
        rates: placed(rates),
        rate_count: rates.len(),
        delays: placed(delays),
        delay_count: delays.len(),
    }
}
