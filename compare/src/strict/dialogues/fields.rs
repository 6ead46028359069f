//! What is written into records: flags first.

use crate::editions::terms::Field as RatedField;
use crate::frames::BUDGETS;
use crate::generate::rng::Rng;
use crate::limits::{MAX_CLASSES, MAX_QUEUE};
use crate::modes::dialogues::wrong;
use crate::modes::terms::Field as PolyField;
use crate::rules;
use crate::strict::calls::OneOf;
use crate::strict::flag;
use crate::strict::queues::record::Record as Queue;
use crate::strict::queues::terms::Field as QueueField;
use crate::strict::reading::Reading;
use crate::strict::terms::{Field, Manager};
use crate::trial::choices::{self, Chosen};

const OPEN: &str = "opened at first";

/// A flag that is none, most often; or another number by which the record breaks
/// its rules.
pub fn damage(rng: &mut Rng, manager: Manager, reading: &Reading) -> Field {
    if !rng.once_in(3) {
        return Field::flag(manager, choices::no_flag(rng));
    }
    let none = choices::none(rng);
    match reading {
        OneOf::Rated(_) => Field::Rated(match rng.once_in(2) {
            true => RatedField::Edition(none),
            false => RatedField::Rule(none),
        }),
        OneOf::Poly(_) => Field::Poly(match rng.once_in(2) {
            true => PolyField::Mode(none),
            false => PolyField::Rule(none),
        }),
        OneOf::Queue(it) => {
            let record = it.record.as_ref().expect(OPEN);
            Field::Queue(damaged_queue(rng, record))
        }
    }
}

/// A queue outside its limits, or one past the class count.
fn damaged_queue(rng: &mut Rng, record: &Queue) -> QueueField {
    let classes = record.classes();
    if classes < usize::from(MAX_CLASSES) && rng.once_in(2) {
        let class = rng.between(classes as i64, BUDGETS as i64 - 1);
        return QueueField::Queue(class as usize, rng.any_scale(MAX_QUEUE));
    }
    let class = rng.below(classes);
    QueueField::Queue(class, rng.pick(&[MAX_QUEUE + 1, -1, i64::MAX, i64::MIN]))
}

/// The other flag, most often; or another number that the record can have.
pub fn change(rng: &mut Rng, manager: Manager, reading: &Reading) -> Field {
    let Chosen { kind, rule, strict } = reading.chosen();
    if rng.once_in(2) {
        return Field::flag(manager, flag::other(strict));
    }
    // Editions and modes are numbered as rules are.
    let (kind, rule) = (rules::other(kind), rules::other(rule));
    match reading {
        OneOf::Rated(_) => Field::Rated(match rng.once_in(2) {
            true => RatedField::Edition(kind),
            false => RatedField::Rule(rule),
        }),
        OneOf::Poly(it) => Field::Poly(match rng.below(3) {
            0 => PolyField::Mode(kind),
            1 => PolyField::Rule(rule),
            _ => wrong::number(rng, &it.record.as_ref().expect(OPEN).opening),
        }),
        OneOf::Queue(it) => {
            let record = it.record.as_ref().expect(OPEN);
            let class = rng.below(record.classes());
            let rate = record.opening.contact.rate;
            let queue = rng.pick(&[0, rate - 1, 3 * rate, MAX_QUEUE]);
            Field::Queue(QueueField::Queue(class, queue.min(MAX_QUEUE)))
        }
    }
}

/// What puts the record's own number back.
pub fn old(manager: Manager, field: Field, reading: &Reading) -> Field {
    let Chosen { kind, rule, strict } = reading.chosen();
    match (field, reading) {
        _ if field.strict().is_some() => Field::flag(manager, strict),
        (Field::Rated(RatedField::Rule(_)), _) => Field::Rated(RatedField::Rule(rule)),
        (Field::Rated(_), _) => Field::Rated(RatedField::Edition(kind)),
        (Field::Poly(field), OneOf::Poly(it)) => {
            let opening = &it.record.as_ref().expect(OPEN).opening;
            Field::Poly(wrong::old(field, opening))
        }
        (Field::Queue(QueueField::Queue(class, _)), OneOf::Queue(it)) => {
            let queue = it.record.as_ref().expect(OPEN).queues[class];
            Field::Queue(QueueField::Queue(class, queue))
        }
        _ => unreachable!("only fields of the manager that is called are written"),
    }
}
