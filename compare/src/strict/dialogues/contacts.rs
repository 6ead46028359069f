//! Contacts that open, most of whose ticks carry more than a unit, so that small
//! bundles are sent in no time; and such as are refused.

use crate::editions::dialogues::{contacts as rated, wrong as wrong_rated};
use crate::editions::terms::Opening as Rated;
use crate::frames::{BUDGETS, QueueOpening, RatedOpening, flag as flags};
use crate::generate::openings::{self, spoil_queue};
use crate::generate::rng::Rng;
use crate::limits::MAX_CLASSES;
use crate::modes::dialogues::{contacts as poly, wrong as wrong_poly};
use crate::strict::queues::terms::Opening as Queue;
use crate::strict::terms::{Manager, Opening};
use crate::trial::choices::Chosen;
use crate::trial::scales::Scale;

pub fn opening(rng: &mut Rng, manager: Manager, chosen: Chosen, scale: Scale) -> Opening {
    match manager {
        Manager::Free | Manager::Priority => {
            let contact = rated_contact(rng, scale);
            Opening::Rated(Rated::of(chosen, contact))
        }
        Manager::Poly => Opening::Poly(poly::opening(rng, chosen, scale)),
        Manager::Queue => Opening::Queue(Queue {
            strict: chosen.strict,
            contact: queue_contact(rng),
        }),
    }
}

/// Of the trial of R-5; half of them, but for those at the limits, with no tick
/// that carries less than two units.
fn rated_contact(rng: &mut Rng, scale: Scale) -> RatedOpening {
    let mut contact = rated::contact(rng, scale);
    if scale != Scale::Limit && rng.once_in(2) {
        for rate in &mut contact.rates {
            rate.value = rng.between(2, 20);
        }
    }
    contact
}

/// Of the frames; a third of them updates itself and has the classes and the
/// budgets to be booked at a queue's limit.
fn queue_contact(rng: &mut Rng) -> QueueOpening {
    let scale = openings::scale(rng);
    let mut contact = openings::queue(rng, scale);
    if rng.once_in(3) {
        contact.flags = flags::SELF_UPDATE | rng.pick(&[0, flags::ADDED_DELAY]);
        contact.classes = rng.between(2, MAX_CLASSES.into()) as u8;
        contact.budgets = [0; BUDGETS];
    }
    contact
}

/// One to three faults of document 01's kinds, some of which cancel.
pub fn spoil(rng: &mut Rng, opening: &mut Opening) {
    match opening {
        Opening::Rated(opening) => wrong_rated::spoil(rng, &mut opening.contact),
        Opening::Poly(opening) => wrong_poly::spoil(rng, &mut opening.contact),
        Opening::Queue(opening) => {
            for _ in 0..rng.between(1, 3) {
                spoil_queue(rng, &mut opening.contact);
            }
            // A queue opening of the library has three flags.
            opening.contact.flags &= flags::ALL;
        }
    }
}
