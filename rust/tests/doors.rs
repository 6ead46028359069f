//! The kept door answers as the total one, and the total one refuses what is
//! damaged: random records, calls and damage.

mod common;

use std::fmt::Debug;

use common::{book_stated, offered, refuses};
use howrekano::{
    Bundle, Choices, DelaySegment, Flags, FreeVolume, Interval, Manager, PolySeg, Polynome,
    PolynomialChoices, PrioritySeg, Queue, QueueChoices, RateSegment, Record, Refusal, record,
};

/// Xorshift: the same numbers at every run.
struct Rng(u64);

impl Rng {
    fn word(&mut self) -> u64 {
        self.0 ^= self.0 << 13;
        self.0 ^= self.0 >> 7;
        self.0 ^= self.0 << 17;
        self.0
    }

    fn below(&mut self, bound: u64) -> u64 {
        self.word() % bound
    }
}

const LENGTH: u64 = 60;
const WINDOW: Interval = Interval {
    start: 0,
    end: LENGTH,
};

fn bundle(rng: &mut Rng) -> Bundle {
    Bundle {
        size: rng.below(40),
        priority: rng.below(4) as u8,
    }
}

fn delays(rng: &mut Rng) -> [DelaySegment; 2] {
    let cut = 1 + rng.below(LENGTH - 1);
    [(0, cut), (cut, LENGTH)].map(|(start, end)| DelaySegment {
        start,
        end,
        delay: rng.below(9),
    })
}

fn rates(rng: &mut Rng) -> [RateSegment; 2] {
    let cut = 1 + rng.below(LENGTH - 1);
    [(0, cut), (cut, LENGTH)].map(|(start, end)| RateSegment {
        start,
        end,
        rate: rng.below(6),
    })
}

fn choices(rng: &mut Rng) -> Choices {
    Choices {
        edition: 1 + rng.below(2),
        rule: 1 + rng.below(2),
        strict: rng.below(2),
    }
}

/// Calls by both doors; the records stay the same.
fn talk<R: Record + Debug>(
    rng: &mut Rng,
    manager: &mut Manager<R>,
    listed: impl Fn(&Manager<R>) -> R::List,
) where
    R::List: PartialEq + Debug,
{
    for _ in 0..60 {
        let at = rng.below(LENGTH + 2);
        let bundle = bundle(rng);
        let mut stated = offered(manager, at, bundle).unwrap_or_default();
        if rng.below(8) == 0 {
            stated.recv.end += 1;
        }
        let _ = book_stated(manager, at, bundle, stated);
        assert_eq!(manager.record().listed(), Ok(listed(manager)));
    }
}

/// Bytes with one changed, or cut off: a record that keeps its rules, or none.
fn tampers<R: Record>(
    rng: &mut Rng,
    bytes: &[u8],
    read: impl Fn(&[u8]) -> Result<Manager<R>, Refusal>,
) {
    for _ in 0..40 {
        let mut bytes = bytes.to_vec();
        match rng.below(4) {
            0 => bytes.truncate(rng.below(bytes.len() as u64) as usize),
            1 => bytes.push(rng.word() as u8),
            _ => {
                let place = rng.below(bytes.len() as u64) as usize;
                bytes[place] ^= 1 << rng.below(8);
            }
        }
        match read(&bytes) {
            Ok(manager) => assert!(manager.record().is_kept()),
            Err(refusal) => assert_eq!(refusal, Refusal::RECORD),
        }
    }
}

#[test]
fn free_volume() {
    let mut rng = Rng(11);
    for _ in 0..300 {
        let choices = choices(&mut rng);
        let opened = FreeVolume::open_with(choices, WINDOW, &rates(&mut rng), &delays(&mut rng));
        let mut manager = opened.unwrap();
        talk(&mut rng, &mut manager, |m| {
            let sum: u64 = m.list().iter().map(|segment| segment.volume).sum();
            assert_eq!(m.room(), sum);
            assert_eq!(m.record().room_left(), Ok(sum));
            m.record().free
        });
        assert_eq!(FreeVolume::from_bytes(&manager.to_bytes()), Ok(manager));
        tampers(&mut rng, &manager.to_bytes(), FreeVolume::from_bytes);
        let mut damaged = *manager.record();
        match rng.below(8) {
            0 => damaged.free.count = rng.word() as usize | 65,
            1 => damaged.free.segments[0].volume = u64::MAX - rng.below(9),
            2 => damaged.contact.rates[rng.below(2) as usize].volume ^= 1 << 50,
            3 => damaged.contact.delays[15].delay = 1 + rng.word() % 9,
            4 => damaged.room = damaged.room.wrapping_sub(9).wrapping_add(rng.below(9)),
            5 => damaged.contact.choices.rule = rng.word() | 4,
            6 => damaged.contact.choices.strict = rng.word() | 4,
            _ => damaged.free.segments[63].end = u64::MAX,
        }
        refuses(damaged);
        assert_eq!(damaged.room_left(), Err(Refusal::RECORD));
    }
}

#[test]
fn priority() {
    let mut rng = Rng(12);
    for _ in 0..300 {
        let choices = choices(&mut rng);
        let opened = PrioritySeg::open_with(choices, WINDOW, &rates(&mut rng), &delays(&mut rng));
        let mut manager = opened.unwrap();
        talk(&mut rng, &mut manager, |m| m.record().bookings);
        assert_eq!(PrioritySeg::from_bytes(&manager.to_bytes()), Ok(manager));
        tampers(&mut rng, &manager.to_bytes(), PrioritySeg::from_bytes);
        let mut damaged = *manager.record();
        match rng.below(6) {
            0 => damaged.bookings.count = 0,
            1 => damaged.bookings.segments[0].start += 1,
            2 => damaged.contact.window.end = 1 << 41,
            3 => damaged.contact.choices.rule = rng.word() | 4,
            4 => damaged.contact.choices.strict = rng.word() | 4,
            _ => damaged.contact.rate_count = rng.word() as usize | 17,
        }
        refuses(damaged);
    }
}

#[test]
fn polynomial() {
    let mut rng = Rng(13);
    for _ in 0..300 {
        let choices = PolynomialChoices {
            mode: 1 + rng.below(2),
            rule: 1 + rng.below(2),
            strict: rng.below(2),
        };
        let polynome = Polynome {
            coefficients: [rng.below(9) as i64, rng.below(3) as i64 - 1, 0, 0],
            offset: rng.below(LENGTH),
        };
        let opened = PolySeg::open_with(choices, WINDOW, polynome, &delays(&mut rng));
        let mut manager = opened.unwrap();
        talk(&mut rng, &mut manager, |m| m.record().free);
        assert_eq!(PolySeg::from_bytes(&manager.to_bytes()), Ok(manager));
        tampers(&mut rng, &manager.to_bytes(), PolySeg::from_bytes);
        let mut damaged = *manager.record();
        match rng.below(7) {
            0 => damaged.free.segments[0].volume = 1 + rng.word() % 9,
            1 => damaged.polynome.coefficients[3] = i64::MIN,
            2 => damaged.polynome.offset = u64::MAX,
            3 => damaged.choices.mode = rng.word() | 4,
            4 => damaged.choices.rule = rng.word() | 4,
            5 => damaged.choices.strict = rng.word() | 4,
            _ => damaged.delay_count = rng.word() as usize | 17,
        }
        refuses(damaged);
    }
}

#[test]
fn queue() {
    let mut rng = Rng(14);
    for _ in 0..300 {
        let flags = Flags {
            add_delay: rng.below(2) == 0,
            self_update: rng.below(2) == 0,
            budgeted: rng.below(2) == 0,
        };
        let budgets: &[u64] = if flags.budgeted { &[90, 80, 70] } else { &[] };
        let choices = QueueChoices {
            strict: rng.below(2),
        };
        let opened = Queue::open_with(choices, WINDOW, 3, 2, 3, flags, budgets);
        let mut manager = opened.unwrap();
        talk(&mut rng, &mut manager, |m| record::Classes {
            classes: m.record().classes,
            queues: m.record().queues,
        });
        for _ in 0..30 {
            let bundle = bundle(&mut rng);
            let mut record = *manager.record();
            if rng.below(2) == 0 {
                assert_eq!(record.enqueue(bundle), manager.enqueue(bundle));
            } else {
                assert_eq!(record.dequeue(bundle), manager.dequeue(bundle));
            }
            assert_eq!(record, *manager.record());
        }
        assert_eq!(Queue::from_bytes(&manager.to_bytes()), Ok(manager));
        tampers(&mut rng, &manager.to_bytes(), Queue::from_bytes);
        let mut damaged = *manager.record();
        match rng.below(5) {
            0 => damaged.classes = rng.word() as usize | 9,
            1 => damaged.queues[7] = 1 + rng.word() % 9,
            2 => damaged.budgets[7] = u64::MAX,
            3 => damaged.choices.strict = rng.word() | 4,
            _ => damaged.rate = 0,
        }
        refuses(damaged);
        let mut after = damaged;
        let bundle = Bundle {
            size: 1,
            priority: 0,
        };
        assert_eq!(after.enqueue(bundle), Err(Refusal::RECORD));
        assert_eq!(after.dequeue(bundle), Err(Refusal::RECORD));
        assert_eq!(after, damaged);
    }
}
