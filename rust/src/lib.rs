//! Contact managers for relay passes; the free-volume manager cannot double-book one, by a theorem.
//!
//! A contact manager answers, for one contact of a delay-tolerant network,
//! when a bundle can be sent, and books the time. The four managers here are
//! those of A-SABR, rewritten in a language in which each function is proved
//! to meet its contract; this package calls the static library made of them.
//!
//! - [`FreeVolume`] keeps the free stretches and the volume each still carries;
//! - [`PrioritySeg`] lets a higher priority take time booked for a lower one;
//! - [`PolySeg`] has a capacity that changes by a polynomial;
//! - [`Queue`] keeps the volume that waits in each class.
//!
//! All have the same calls: `open`, [`dry_run`](Manager::dry_run),
//! [`book`](Manager::book) and `list`; the free-volume manager also
//! [`room`](Manager::room), what its free stretches add up to, and the queue
//! manager [`enqueue`](Manager::enqueue) and [`dequeue`](Manager::dequeue). A
//! call that cannot be met answers with a [`Refusal`] and changes nothing. No
//! call panics.
//!
//! The free-volume and the priority manager round a send's end as the original
//! does, or with `open_with` as the relay's own rule does: [`Choices`] says how.
//! The polynomial manager counts capacity as the original does, which drops
//! fractions, or with `open_with` as the true integral: [`PolynomialChoices`] says
//! how. On the tick at which a delay changes, all three take the earlier delay, as
//! the original does, or with `open_with` the later one: [the rule of the
//! delays](Choices#the-rule-of-the-delays) says when.
//!
//! A bundle that is sent in no time is booked as the original does, which takes a
//! free stretch's rest or lists an empty one; or with `open_with` booking it is
//! refused: [the strict flag](Choices#the-strict-flag) says when, and
//! [`QueueChoices`] for queues.
//!
//! A record can be taken out and put back, as bytes or as plain data:
//!
//! ```
//! use howrekano::{Bundle, DelaySegment, FreeVolume, Interval, RateSegment, Refusal};
//!
//! let window = Interval { start: 0, end: 10 };
//! let rates = [RateSegment { start: 0, end: 10, rate: 10 }];
//! let delays = [DelaySegment { start: 0, end: 10, delay: 3 }];
//! let contact = FreeVolume::open(window, &rates, &delays)?;
//!
//! let mut bytes = contact.to_bytes();
//! assert_eq!(FreeVolume::from_bytes(&bytes)?, contact);
//!
//! bytes.pop();
//! assert_eq!(FreeVolume::from_bytes(&bytes), Err(Refusal::RECORD));
//! # Ok::<(), Refusal>(())
//! ```

#![deny(unsafe_code)]
#![warn(missing_docs)]

mod bytes;
mod choices;
mod free;
#[allow(unsafe_code)]
mod manager;
mod polynomial;
mod priority;
mod queue;
#[allow(missing_docs)]
pub mod record;
#[allow(missing_docs)]
mod refusal;
#[allow(missing_docs)]
mod segments;

pub use choices::{Choices, PolynomialChoices, QueueChoices};
pub use free::FreeVolume;
pub use manager::{Manager, Record};
pub use polynomial::PolySeg;
pub use priority::PrioritySeg;
pub use queue::Queue;
pub use refusal::Refusal;
pub use segments::{
    BookingSegment, Bundle, DelaySegment, Flags, Interval, Offer, Polynome, RateSegment,
    VolumeSegment,
};
