//! The queue manager, whose records name their strict flag.

use howrekano::{Flags, Interval, Manager, Queue, QueueChoices, Record, Refusal, record};
use oracle::frames::{Dates, Load, Request, flag};
use oracle::strict::queues::calls::Calls;
use oracle::strict::queues::terms::{Field, Opening};

use super::{Held, agreed, bundle, window, word};

/// What is open, and called through both doors.
#[derive(Clone)]
pub struct Tested(Held<record::Queue>);

impl Tested {
    pub fn nothing_open() -> Self {
        Tested(Held::Nothing)
    }
}

impl Calls for Tested {
    fn open(&mut self, opening: &Opening) -> Result<(), u8> {
        let given = Given::of(opening);
        let kept = given.open();
        given.hold_choices(kept)?;
        self.0.open(kept, record::Queue::opened(&given.figures()))
    }

    fn dry_run(&mut self, request: Request) -> Result<Dates, u8> {
        self.0.dry_run(request)
    }

    fn book(&mut self, request: Request, stated: Dates) -> Result<(), u8> {
        self.0.book(request, stated)
    }

    fn list(&mut self) -> Result<Vec<i64>, u8> {
        let kept = |manager: &Queue| Ok(manager.list().to_vec());
        let total = |record: &record::Queue| {
            let listed = record.listed()?;
            Ok(listed.queues.iter().take(listed.classes).copied().collect())
        };
        let queues = self.0.look("lists", kept, total)?;
        Ok(queues.into_iter().map(|queue| queue as i64).collect())
    }

    fn enqueue(&mut self, load: Load) -> Result<(), u8> {
        let bundle = bundle(load);
        let kept = |manager: &mut Manager<_>| manager.enqueue(bundle);
        let total = |record: &mut record::Queue| record.enqueue(bundle);
        self.0.change("what is enqueued", kept, total)
    }

    fn dequeue(&mut self, load: Load) -> Result<(), u8> {
        let bundle = bundle(load);
        let kept = |manager: &mut Manager<_>| manager.dequeue(bundle);
        let total = |record: &mut record::Queue| record.dequeue(bundle);
        self.0.change("what is dequeued", kept, total)
    }

    fn write(&mut self, field: Field) -> Result<(), u8> {
        self.0.rewrite(|record| match field {
            Field::Strict(strict) => record.choices.strict = strict,
            Field::Queue(class, queue) => record.queues[class] = word(queue),
        })
    }
}

/// An opening in the library's words.
struct Given {
    choices: QueueChoices,
    window: Interval,
    rate: u64,
    delay: u64,
    classes: usize,
    flags: Flags,
    budgets: [u64; record::CLASSES],
}

impl Given {
    fn of(opening: &Opening) -> Self {
        let contact = &opening.contact;
        let has = |bit| contact.flags & bit != 0;
        Given {
            choices: QueueChoices {
                strict: opening.strict,
            },
            window: window(contact.window),
            rate: word(contact.rate),
            delay: word(contact.delay),
            classes: contact.classes.into(),
            flags: Flags {
                add_delay: has(flag::ADDED_DELAY),
                self_update: has(flag::SELF_UPDATE),
                budgeted: has(flag::BUDGETED),
            },
            budgets: contact.budgets.map(word),
        }
    }

    /// By the manager's own door.
    fn open(&self) -> Result<Queue, Refusal> {
        Queue::open_with(
            self.choices,
            self.window,
            self.rate,
            self.delay,
            self.classes,
            self.flags,
            &self.budgets,
        )
    }

    fn open_plain(&self) -> Result<Queue, Refusal> {
        Queue::open(
            self.window,
            self.rate,
            self.delay,
            self.classes,
            self.flags,
            &self.budgets,
        )
    }

    /// The record names what was chosen, and the opening that chooses nothing is
    /// that of the default.
    fn hold_choices(&self, opened: Result<Queue, Refusal>) -> Result<(), u8> {
        if let Ok(manager) = opened {
            agreed("choices", Ok(manager.choices()), Ok(self.choices))?;
        }
        if self.choices == QueueChoices::default() {
            agreed("plain openings", Ok(self.open_plain()), Ok(opened)).map(drop)?;
        }
        Ok(())
    }

    /// For the total door.
    fn figures(&self) -> record::QueueOpening {
        record::QueueOpening {
            choices: self.choices,
            window: self.window,
            rate: self.rate,
            delay: self.delay,
            classes: self.classes,
            flags: self.flags,
            budgets: self.budgets,
        }
    }
}
