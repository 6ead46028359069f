//! Why a call is refused: document 01's number, what it means and what to do.

use std::error::Error;
use std::fmt;

/// A refusal, with document 01's number, or 02's. A refused call has changed
/// nothing.
///
/// ```
/// use howrekano::{Bundle, DelaySegment, FreeVolume, Interval, RateSegment, Refusal};
///
/// let window = Interval { start: 0, end: 10 };
/// let rates = [RateSegment { start: 0, end: 10, rate: 10 }];
/// let delays = [DelaySegment { start: 0, end: 10, delay: 3 }];
/// let contact = FreeVolume::open(window, &rates, &delays)?;
///
/// let refusal = contact.dry_run(0, Bundle { size: 101, priority: 0 }).unwrap_err();
/// assert_eq!(refusal, Refusal::NO_OFFER);
/// assert_eq!(refusal.number(), 7);
/// println!("{refusal}");
/// # Ok::<(), Refusal>(())
/// ```
#[derive(Clone, Copy, PartialEq, Eq, Hash)]
pub struct Refusal(u8);

impl Refusal {
    pub const RECORD: Refusal = Refusal(1);
    pub const BUNDLE: Refusal = Refusal(2);
    /// At an opening, 2 is for a choice that there is not: an edition, a mode or a
    /// rule other than 1 or 2, or a strict flag other than 0 or 1.
    pub const CHOICE: Refusal = Self::BUNDLE;
    pub const WINDOW: Refusal = Refusal(3);
    pub const RATES: Refusal = Refusal(4);
    /// With a polynomial, that the delays cover the window is asked under rule 2
    /// alone.
    pub const DELAYS: Refusal = Refusal(5);
    pub const VOLUME: Refusal = Refusal(6);
    pub const NO_OFFER: Refusal = Refusal(7);
    /// Met with a polynomial under rule 1 alone: all other delays cover the window.
    pub const NO_DELAY: Refusal = Refusal(8);
    pub const NOT_OFFERED: Refusal = Refusal(9);
    pub const FULL: Refusal = Refusal(10);
    pub const POLYNOMIAL: Refusal = Refusal(11);
    pub const SELF_UPDATE: Refusal = Refusal(12);
    pub const QUEUE: Refusal = Refusal(13);
    pub const CLASSES: Refusal = Refusal(14);
    /// Met under the strict flag alone, where what a dry run offers is to be booked.
    /// Under edition 2 and with a polynomial every send has a length.
    pub const ZERO_LENGTH: Refusal = Refusal(17);

    /// What a call's number says: 0 is done.
    #[inline]
    pub(crate) fn unless_done(number: u8) -> Result<(), Refusal> {
        match number {
            0 => Ok(()),
            refused => Err(Refusal(refused)),
        }
    }

    /// Document 01's number, 1 to 14, or 02's 17.
    pub fn number(self) -> u8 {
        self.0
    }

    /// What the number means.
    pub fn meaning(self) -> &'static str {
        self.words().0
    }

    /// What the caller can do.
    pub fn advice(self) -> &'static str {
        self.words().1
    }

    fn words(self) -> (&'static str, &'static str) {
        match self {
            Self::RECORD => (
                "the record breaks its rules",
                "it was damaged on its way: take it from a copy, or open the contact anew",
            ),
            Self::BUNDLE => (
                "the time, the size or the priority is outside its limits, or an opening names a choice that there is not",
                "ask at a time of 0 to 2^40 for a size of 1 to 2^38 with a priority of 0 to 127; open a contact with edition 1 or 2, a polynomial with mode 1 or 2, either with rule 1 or 2, and any with strict 0 or 1",
            ),
            Self::WINDOW => (
                "the window is outside its limits",
                "give a start before the end, an end of at most 2^40 and a length of at most 2^24",
            ),
            Self::RATES => (
                "the rate segments do not cover exactly the window",
                "give 1 to 16 segments, none empty, each beginning where the one before ends",
            ),
            Self::DELAYS => (
                "the delay segments do not cover exactly the window, or a delay is outside its limits",
                "give 1 to 16 segments as for the rates, with delays of 0 to 2^40; with a polynomial under rule 1, at most 16, which need not cover the window",
            ),
            Self::VOLUME => (
                "a rate, or the contact's total volume, is outside its limits",
                "rates and the total are 0 to 2^38 (a queue's rate at least 1): choose a larger unit, or split the contact",
            ),
            Self::NO_OFFER => (
                "no offer",
                "ask at another time or for a smaller size, or try another contact",
            ),
            Self::NO_DELAY => (
                "a time to send was found, but the delays of a polynomial under rule 1, which need not cover the window, have none for it",
                "give delay segments up to the window's end when opening; rule 2 refuses an opening without them",
            ),
            Self::NOT_OFFERED => (
                "these dates are not what a dry run at this time offers now",
                "make the dry run again and book what it answers",
            ),
            Self::FULL => (
                "the booking would leave more than 64 listed segments",
                "book at a listed segment's start, or try another contact",
            ),
            Self::POLYNOMIAL => (
                "the offset, a coefficient or the polynomial's range (in mode 2, twelve times that) is outside its limits",
                "coefficients are within 2^61 and the offset at most 2^40; move the offset nearer to the window",
            ),
            Self::SELF_UPDATE => (
                "manual queueing on a manager that updates itself",
                "book instead, or open it without self-update",
            ),
            Self::QUEUE => (
                "a queue would leave 0 to 2^41",
                "dequeue only what was enqueued, and send before enqueueing more",
            ),
            Self::CLASSES => (
                "the class count or a budget is outside its limits",
                "give 1 to 8 classes and, for each of them or for none, a budget of at most 2^38",
            ),
            Self::ZERO_LENGTH => (
                "the offer's send starts and ends on the same tick, and the contact was opened strict",
                "put small bundles together, to a size of at least what a tick carries at that time; or open the contact with strict 0, or a free-volume or priority one with edition 2, whose sends all have a length",
            ),
            _ => (
                "an unknown number",
                "compare the versions of the library and this package",
            ),
        }
    }
}

impl fmt::Display for Refusal {
    fn fmt(&self, f: &mut fmt::Formatter<'_>) -> fmt::Result {
        write!(
            f,
            "refused ({}): {}; {}",
            self.0,
            self.meaning(),
            self.advice()
        )
    }
}

impl fmt::Debug for Refusal {
    fn fmt(&self, f: &mut fmt::Formatter<'_>) -> fmt::Result {
        write!(f, "Refusal({}: {})", self.0, self.meaning())
    }
}

impl Error for Refusal {}
