//! The queue manager: for each class of priorities, the volume that waits.

use crate::choices::QueueChoices;
use crate::manager::Manager;
use crate::record::{self, QueueOpening, placed, used};
use crate::refusal::Refusal;
use crate::segments::{Flags, Interval};

/// The queue manager.
///
/// ```
/// use howrekano::{Bundle, Flags, Interval, Queue};
///
/// let window = Interval { start: 0, end: 10 };
/// let flags = Flags { add_delay: true, self_update: true, budgeted: false };
/// let mut contact = Queue::open(window, 10, 2, 3, flags, &[])?;
///
/// let bundle = Bundle { size: 25, priority: 1 };
/// let offer = contact.dry_run(0, bundle)?;
/// assert_eq!(offer.send, Interval { start: 0, end: 2 });
/// contact.book(0, bundle, offer)?;
/// assert_eq!(contact.list(), [25, 25, 0]);
/// # Ok::<(), howrekano::Refusal>(())
/// ```
pub type Queue = Manager<record::Queue>;

impl Queue {
    /// Opens a contact of one rate and one delay with 1 to 8 classes, with the
    /// original's choices. Budgets are given for each class where the flags say
    /// so, else for none.
    pub fn open(
        window: Interval,
        rate: u64,
        delay: u64,
        classes: usize,
        flags: Flags,
        budgets: &[u64],
    ) -> Result<Self, Refusal> {
        let choices = QueueChoices::default();
        Self::open_with(choices, window, rate, delay, classes, flags, budgets)
    }

    /// [`Queue::open`] with these choices.
    pub fn open_with(
        choices: QueueChoices,
        window: Interval,
        rate: u64,
        delay: u64,
        classes: usize,
        flags: Flags,
        budgets: &[u64],
    ) -> Result<Self, Refusal> {
        let opening = QueueOpening {
            choices,
            window,
            rate,
            delay,
            classes,
            flags,
            budgets: placed(budgets),
        };
        let opened = Manager::opened(&opening)?;
        // The library has places for 8 budgets; more are no budgets of 8 classes.
        match budgets.len() > record::CLASSES {
            true => Err(Refusal::CLASSES),
            false => Ok(opened),
        }
    }

    /// What the contact was opened with.
    pub fn choices(&self) -> QueueChoices {
        self.record().choices
    }

    /// What is queued, by class.
    pub fn list(&self) -> &[u64] {
        let queue = self.record();
        used(&queue.queues, queue.classes)
    }
}
