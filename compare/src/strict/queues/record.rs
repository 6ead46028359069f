//! A queue record as plain vectors, and what is done with it.

use super::opening;
use super::terms::{Field, Opening};
use crate::frames::{BUDGETS, Dates, Load, Request, flag as flags};
use crate::limits::MAX_QUEUE;
use crate::modes::reading::record::{load_in_limits, test_request};
use crate::strict::flag;

/// The record keeps what it was opened with, its flag first.
#[derive(Clone, Debug)]
pub struct Record {
    pub opening: Opening,
    /// By class; those past the class count are zero.
    pub queues: [i64; BUDGETS],
}

impl Record {
    /// "the port's begins with all queues zero".
    pub fn opened(opening: &Opening) -> Self {
        Record {
            opening: opening.clone(),
            queues: [0; BUDGETS],
        }
    }

    pub fn classes(&self) -> usize {
        self.opening.contact.classes.into()
    }

    pub fn listed(&self) -> &[i64] {
        &self.queues[..self.classes()]
    }

    pub fn write(&mut self, field: Field) {
        match field {
            Field::Strict(strict) => self.opening.strict = strict,
            Field::Queue(class, queue) => self.queues[class] = queue,
        }
    }

    /// "Unused places are zero, and all that the opening tests holds"; "Queue size
    /// 0 to 2^41".
    pub fn test(&self) -> Result<(), u8> {
        let keeps = opening::refusal(&self.opening).is_none()
            && self.queues.iter().all(is_queue)
            && self.queues[self.classes()..]
                .iter()
                .all(|queue| *queue == 0);
        if keeps { Ok(()) } else { Err(1) }
    }

    pub fn dry_run(&self, request: Request) -> Result<Dates, u8> {
        self.test()?;
        test_request(request)?;
        self.offer(request).ok_or(7)
    }

    pub fn book(&mut self, request: Request, stated: Dates) -> Result<(), u8> {
        self.test()?;
        test_request(request)?;
        if self.offer(request) != Some(stated) {
            return Err(9);
        }
        flag::test(self.opening.strict, stated)?;
        self.enqueue_booked(request.load)
    }

    /// "booking enqueues only under self-update".
    pub fn enqueue_booked(&mut self, load: Load) -> Result<(), u8> {
        match self.updates_itself() {
            true => self.add(load, 1),
            false => Ok(()),
        }
    }

    pub fn enqueue(&mut self, load: Load) -> Result<(), u8> {
        self.by_hand(load, 1)
    }

    pub fn dequeue(&mut self, load: Load) -> Result<(), u8> {
        self.by_hand(load, -1)
    }

    /// "Manual queueing: 1, 2, 12, 13." The flag is about bookings.
    fn by_hand(&mut self, load: Load, sign: i64) -> Result<(), u8> {
        self.test()?;
        if !load_in_limits(load) {
            return Err(2);
        }
        if self.updates_itself() {
            return Err(12);
        }
        self.add(load, sign)
    }

    /// "Enqueue adds the size to classes 0 to this one, dequeue subtracts", if all
    /// stay in their limits.
    fn add(&mut self, load: Load, sign: i64) -> Result<(), u8> {
        let mut queues = self.queues;
        for queue in &mut queues[..=self.class(load)] {
            *queue += sign * load.size;
        }
        if !queues.iter().all(is_queue) {
            return Err(13);
        }
        self.queues = queues;
        Ok(())
    }

    /// "No offer if size > budget - queue", and "no offer past the window".
    pub fn offer(&self, request: Request) -> Option<Dates> {
        let Request { time, load } = request;
        let contact = &self.opening.contact;
        let class = self.class(load);
        let window = contact.window;
        if load.size > self.budget(class) - self.queues[class] {
            return None;
        }
        let wait = match self.adds_delay() {
            true => self.queues[class] / contact.rate,
            false => 0,
        };
        let start = match self.updates_itself() {
            true => time.max(window.start + wait),
            false => time.max(window.start) + wait,
        };
        let end = start + load.size / contact.rate;
        let received = |date| date + contact.delay;
        (end <= window.end).then(|| Dates([start, end, received(start), received(end)]))
    }

    /// "Class is the priority, at most the last."
    pub fn class(&self, load: Load) -> usize {
        usize::from(load.priority).min(self.classes() - 1)
    }

    /// "unbudgeted, the budget is window length x rate".
    fn budget(&self, class: usize) -> i64 {
        let contact = &self.opening.contact;
        match contact.flags & flags::BUDGETED {
            0 => (contact.window.end - contact.window.start) * contact.rate,
            _ => contact.budgets[class],
        }
    }

    fn adds_delay(&self) -> bool {
        self.opening.contact.flags & flags::ADDED_DELAY != 0
    }

    pub fn updates_itself(&self) -> bool {
        self.opening.contact.flags & flags::SELF_UPDATE != 0
    }
}

fn is_queue(queue: &i64) -> bool {
    (0..=MAX_QUEUE).contains(queue)
}
