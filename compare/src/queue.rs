//! The queue manager: one type of the original for each class count and each
//! setting of the flags.

use std::array;

use asabr::contact::Contact;
use asabr::contact_manager::legacy::LegacyManager;
use asabr::contact_manager::legacy::eto::{AnyQueueManager, Queues};
use asabr::types::Volume;

use crate::calls;
use crate::frames::{Content, Dates, Load, QueueOpening, Request, Span, flag};
use crate::limits::{self, MAX_CLASSES, MAX_QUEUE};
use crate::refusal::Refusal;
use crate::state::Record;

/// Opening order 3, 6, 5, 14.
pub fn open(opening: &QueueOpening) -> Result<Box<dyn Record>, Refusal> {
    limits::test_window(opening.window)?;
    test_rate(opening)?;
    if !limits::is_delay(opening.delay) {
        return Err(Refusal::Delays);
    }
    test_classes(opening)?;
    let contact = calls::open(opening.window, || AnyQueueManager(manager(opening)))?;
    Ok(Box::new(Queue { contact }))
}

/// One rate over the whole window, and not zero: the original divides by it.
fn test_rate(opening: &QueueOpening) -> Result<(), Refusal> {
    let whole = Span {
        start: opening.window.start,
        end: opening.window.end,
        value: opening.rate,
    };
    limits::test_volumes(&[whole], 1)
}

/// Refusal 14.
fn test_classes(opening: &QueueOpening) -> Result<(), Refusal> {
    let used = match opening.flags & flag::BUDGETED {
        0 => 0,
        _ => opening.classes as usize,
    };
    let fits = 1 <= opening.classes
        && opening.classes <= MAX_CLASSES
        && opening.budgets[..used]
            .iter()
            .all(|budget| limits::is_budget(*budget))
        && opening.budgets[used..].iter().all(|budget| *budget == 0);
    fits.then_some(()).ok_or(Refusal::Classes)
}

fn manager(opening: &QueueOpening) -> Box<dyn Queues> {
    match opening.classes {
        1 => with_classes::<1>(opening),
        2 => with_classes::<2>(opening),
        3 => with_classes::<3>(opening),
        4 => with_classes::<4>(opening),
        5 => with_classes::<5>(opening),
        6 => with_classes::<6>(opening),
        7 => with_classes::<7>(opening),
        8 => with_classes::<8>(opening),
        _ => unreachable!("the class count was tested"),
    }
}

fn with_classes<const CLASSES: usize>(opening: &QueueOpening) -> Box<dyn Queues> {
    let added_delay = opening.flags & flag::ADDED_DELAY != 0;
    let self_update = opening.flags & flag::SELF_UPDATE != 0;
    match (added_delay, self_update) {
        (false, false) => with_flags::<false, false, CLASSES>(opening),
        (false, true) => with_flags::<false, true, CLASSES>(opening),
        (true, false) => with_flags::<true, false, CLASSES>(opening),
        (true, true) => with_flags::<true, true, CLASSES>(opening),
    }
}

fn with_flags<const ADDED_DELAY: bool, const SELF_UPDATE: bool, const CLASSES: usize>(
    opening: &QueueOpening,
) -> Box<dyn Queues> {
    let rate = opening.rate.into();
    let delay = opening.delay.into();
    if opening.flags & flag::BUDGETED == 0 {
        Box::new(LegacyManager::<ADDED_DELAY, SELF_UPDATE, CLASSES, 0>::new(
            rate, delay,
        ))
    } else {
        let budgets = array::from_fn(|class| opening.budgets[class].into());
        Box::new(LegacyManager::<ADDED_DELAY, SELF_UPDATE, CLASSES, 1>::new(
            rate, delay, budgets,
        ))
    }
}

struct Queue {
    contact: Contact<AnyQueueManager>,
}

impl Queue {
    fn queues(&self) -> &[Volume] {
        self.contact.manager.0.queues()
    }

    /// Refusal 13. The original has no bounds, so it changes the queues first;
    /// those from before are put back where one has left its bounds.
    fn change_within_bounds(
        &mut self,
        change: impl FnOnce(&mut Contact<AnyQueueManager>) -> Result<(), Refusal>,
    ) -> Result<(), Refusal> {
        let mut before = [0; MAX_CLASSES as usize];
        let classes = self.queues().len();
        before[..classes].copy_from_slice(self.queues());
        change(&mut self.contact)?;
        let bounds = 0..=Volume::from(MAX_QUEUE);
        if self.queues().iter().all(|queue| bounds.contains(queue)) {
            return Ok(());
        }
        self.contact.manager.0.put_back(&before[..classes]);
        Err(Refusal::QueueBound)
    }
}

impl Record for Queue {
    fn dry_run(&self, request: Request) -> Result<Dates, Refusal> {
        limits::test_request(request)?;
        calls::dry_run(&self.contact, request)
    }

    fn book(&mut self, request: Request, stated: Dates) -> Result<(), Refusal> {
        limits::test_request(request)?;
        calls::test_offered(&self.contact, request, stated)?;
        self.change_within_bounds(|contact| calls::schedule(contact, request.load, stated))
    }

    fn list(&self) -> Result<Content, Refusal> {
        let queues = self.queues().iter().map(|queue| calls::number(*queue));
        queues.collect::<Result<_, _>>().map(Content::Queues)
    }

    fn enqueue(&mut self, load: Load) -> Result<(), Refusal> {
        limits::test_load(load)?;
        self.change_within_bounds(|contact| calls::enqueue(contact, load))
    }

    fn dequeue(&mut self, load: Load) -> Result<(), Refusal> {
        limits::test_load(load)?;
        self.change_within_bounds(|contact| calls::dequeue(contact, load))
    }

    /// Queues are no free volumes.
    fn room(&self) -> Result<i64, Refusal> {
        Err(Refusal::NotManual)
    }
}
