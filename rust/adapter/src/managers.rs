//! The four managers, each opened from its parts.

use howrekano::{Bundle, Interval, Manager, Offer, Refusal, record};

use crate::{Adapts, Polynomial, Queueing, Rated};

impl Adapts for record::FreeVolume {
    type Parts = Rated;

    fn open(window: Interval, parts: &Rated) -> Result<Manager<Self>, Refusal> {
        howrekano::FreeVolume::open(window, &parts.rates, &parts.delays)
    }

    fn window(&self) -> Interval {
        self.contact.window
    }
}

impl Adapts for record::PrioritySeg {
    type Parts = Rated;

    fn open(window: Interval, parts: &Rated) -> Result<Manager<Self>, Refusal> {
        howrekano::PrioritySeg::open(window, &parts.rates, &parts.delays)
    }

    fn window(&self) -> Interval {
        self.contact.window
    }
}

impl Adapts for record::PolySeg {
    type Parts = Polynomial;

    fn open(window: Interval, parts: &Polynomial) -> Result<Manager<Self>, Refusal> {
        howrekano::PolySeg::open(window, parts.polynome, &parts.delays)
    }

    fn window(&self) -> Interval {
        self.window
    }
}

impl Adapts for record::Queue {
    type Parts = Queueing;

    fn open(window: Interval, parts: &Queueing) -> Result<Manager<Self>, Refusal> {
        howrekano::Queue::open(
            window,
            parts.rate,
            parts.delay,
            parts.classes,
            parts.flags,
            &parts.budgets,
        )
    }

    fn window(&self) -> Interval {
        self.window
    }

    /// With added delay only, what is queued is added to the asked time: it is
    /// taken off again.
    fn asked(&self, bundle: Bundle, offer: Offer) -> u64 {
        let send = offer.send.start;
        if !self.flags.add_delay || self.flags.self_update {
            return send;
        }
        let last = self.classes.saturating_sub(1);
        let class = usize::from(bundle.priority).min(last);
        let queued = self.queues.get(class).copied().unwrap_or_default();
        send.saturating_sub(queued.checked_div(self.rate).unwrap_or_default())
    }

    fn enqueue(manager: &mut Manager<Self>, bundle: Bundle) -> Result<(), Refusal> {
        manager.enqueue(bundle)
    }

    fn dequeue(manager: &mut Manager<Self>, bundle: Bundle) -> Result<(), Refusal> {
        manager.dequeue(bundle)
    }
}
