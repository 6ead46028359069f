//! The polynomial manager: free stretches, and a capacity that a polynomial
//! gives for each date.

use crate::choices::PolynomialChoices;
use crate::manager::Manager;
use crate::record::{self, PolynomialOpening, placed, used};
use crate::refusal::Refusal;
use crate::segments::{DelaySegment, Interval, Polynome, VolumeSegment};

/// The polynomial manager.
///
/// ```
/// use howrekano::{Bundle, DelaySegment, Interval, PolySeg, Polynome};
///
/// let window = Interval { start: 0, end: 10 };
/// let rate = Polynome { coefficients: [10, 0, 0, 0], offset: 0 };
/// let delays = [DelaySegment { start: 0, end: 10, delay: 3 }];
/// let mut contact = PolySeg::open(window, rate, &delays)?;
///
/// let bundle = Bundle { size: 15, priority: 0 };
/// let offer = contact.dry_run(3, bundle)?;
/// assert_eq!(offer.send, Interval { start: 3, end: 5 });
/// contact.book(3, bundle, offer)?;
/// assert_eq!(contact.list().len(), 2);
/// # Ok::<(), howrekano::Refusal>(())
/// ```
pub type PolySeg = Manager<record::PolySeg>;

impl PolySeg {
    /// Opens a contact, with the original's choices; its delays need not cover
    /// the window.
    pub fn open(
        window: Interval,
        polynome: Polynome,
        delays: &[DelaySegment],
    ) -> Result<Self, Refusal> {
        Self::open_with(PolynomialChoices::default(), window, polynome, delays)
    }

    /// [`PolySeg::open`] with these choices; under rule 2 its delays cover exactly
    /// the window.
    pub fn open_with(
        choices: PolynomialChoices,
        window: Interval,
        polynome: Polynome,
        delays: &[DelaySegment],
    ) -> Result<Self, Refusal> {
        Manager::opened(&PolynomialOpening {
            choices,
            window,
            polynome,
            delays: placed(delays),
            delay_count: delays.len(),
        })
    }

    /// What the contact was opened with.
    pub fn choices(&self) -> PolynomialChoices {
        self.record().choices
    }

    /// The free stretches, in order; their volumes are 0.
    pub fn list(&self) -> &[VolumeSegment] {
        let free = &self.record().free;
        used(&free.segments, free.count)
    }
}
