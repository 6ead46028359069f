//! Times the proved managers beside the original: the same contacts, the same
//! calls, in turn, the least of several rounds.

use std::hint::black_box;
use std::time::Instant;

use adapter::asabr::bundle::Bundle;
use adapter::asabr::contact::{Contact, ContactInfo};
use adapter::asabr::contact_manager::legacy::LegacyManager;
use adapter::asabr::contact_manager::legacy::eto::Queues;
use adapter::asabr::contact_manager::segmentation::Segment;
use adapter::asabr::contact_manager::segmentation::poly_seg::PolySegManager;
use adapter::asabr::contact_manager::segmentation::pseg::PSegmentationManager;
use adapter::asabr::contact_manager::segmentation::seg::SegmentationManager;
use adapter::asabr::contact_manager::{ContactManager, ContactManagerTxData};
use adapter::asabr::poly::Polynome;
use adapter::asabr::types::{NodeID, TimeInterval};
use adapter::{Adapts, Polynomial, Queueing, Rated};
use howrekano::{Flags, Interval, Manager, Offer, Refusal, record};

const HELP: &str = "\
bench: times dry runs, refused ones and bookings of the proved managers, by the kept
and by the total door, beside the original's. Nanoseconds a call, the least of 9
rounds in turn; the last columns are ours / original, so less is faster.
";

const ROUNDS: usize = 9;
const CALLS: usize = 10_000;
/// Copies that are booked one after the other, made before the clock starts.
const COPIES: usize = 16;
const LONGEST: u64 = 1 << 24;

fn main() -> Result<(), Refusal> {
    if std::env::args().nth(1).is_some() {
        print!("{HELP}");
        return Ok(());
    }
    println!(
        "{:<60} {:>9} {:>9} {:>9} {:>7} {:>7}",
        "call", "original", "kept", "total", "kept/o", "total/o"
    );
    for rates in [1, 16] {
        for listed in [1, 16, 64] {
            free(listed, rates)?;
        }
    }
    for listed in [1, 64] {
        priority(listed)?;
    }
    for listed in [1, 64] {
        polynomial(listed)?;
    }
    queue()
}

// ---------------------------------------------------------------------------
// The contacts

fn free(listed: u64, count: u64) -> Result<(), Refusal> {
    let (rates, delays) = rated(count);
    let ours = Rated::new(&rates, &delays).ok_or(Refusal::RATES)?;
    let original = SegmentationManager::new(rates, delays);
    let mut pair = Pair::<_, record::FreeVolume>::open(original, &ours, Clone::clone)?;
    // Each booking is inside the last stretch and leaves one more.
    for place in 1..listed {
        pair.book(100 * place, TEN_TICKS)?;
    }
    let name = format!("free, {listed} listed, {count} rates");
    let last = pair.ours.list()[listed as usize - 1].start;
    pair.measure(&name, "dry run", last, TEN_TICKS);
    pair.refused(&name);
    pair.booking(&name, "at a start", last, TEN_TICKS);
    if listed < 64 {
        pair.booking(&name, "inside", last + 50, TEN_TICKS);
    }
    pair.room(&name);
    Ok(())
}

fn priority(listed: u64) -> Result<(), Refusal> {
    let (rates, delays) = rated(1);
    let ours = Rated::new(&rates, &delays).ok_or(Refusal::RATES)?;
    let original = PSegmentationManager::new(rates, delays);
    let mut pair = Pair::<_, record::PrioritySeg>::open(original, &ours, Clone::clone)?;
    // The first booking leaves one more segment, each other one two.
    for place in 0..listed / 2 {
        pair.book(100 * place, TEN_TICKS)?;
    }
    let name = format!("priority, {listed} listed");
    let last = 100 * (listed / 2).saturating_sub(1);
    let higher = Load {
        priority: 1,
        ..TEN_TICKS
    };
    pair.measure(&name, "dry run", last, higher);
    pair.refused(&name);
    let how = match listed {
        1 => "at a start",
        _ => "over a booking",
    };
    pair.booking(&name, how, last, higher);
    Ok(())
}

fn polynomial(listed: u64) -> Result<(), Refusal> {
    let (_, delays) = rated(1);
    let coefficients = [100, 0, 0, 0];
    let ours = Polynomial::new(coefficients, 0, &delays).ok_or(Refusal::POLYNOMIAL)?;
    let original = PolySegManager::new(Polynome::new(coefficients, 0), delays);
    let mut pair = Pair::<_, record::PolySeg>::open(original, &ours, Clone::clone)?;
    for place in 1..listed {
        pair.book(100 * place, TEN_TICKS)?;
    }
    let last = pair.ours.list()[listed as usize - 1].start;
    // The original has mode 1 alone. The rate does not change, so that mode 2
    // has the same offers.
    for (mode, named) in [(1, ""), (2, ", mode 2")] {
        let mut record = *pair.ours.record();
        record.choices.mode = mode;
        pair.ours = Manager::from_record(record)?;
        let name = format!("polynomial, {listed} listed{named}");
        pair.measure(&name, "dry run", last, TEN_TICKS);
        pair.refused(&name);
        pair.booking(&name, "at a start", last, TEN_TICKS);
    }
    Ok(())
}

fn queue() -> Result<(), Refusal> {
    let ours = Queueing {
        rate: 100,
        delay: 5,
        classes: 3,
        flags: Flags {
            add_delay: true,
            self_update: true,
            budgeted: false,
        },
        budgets: Vec::new(),
    };
    let original = LegacyManager::<true, true, 3, 0>::new(100, 5);
    let mut pair = Pair::<_, record::Queue>::open(original, &ours, |from| {
        let mut copy = LegacyManager::<true, true, 3, 0>::new(100, 5);
        copy.try_init(&contact());
        copy.put_back(from.queues());
        copy
    })?;
    pair.book(0, TEN_TICKS)?;
    pair.measure("queue, 3 classes", "dry run", 0, TEN_TICKS);
    pair.refused("queue, 3 classes");
    pair.booking("queue, 3 classes", "", 0, TEN_TICKS);
    Ok(())
}

/// The longest window, in so many equal parts of one rate.
fn rated(count: u64) -> (Vec<Segment<i128>>, Vec<Segment<i128>>) {
    let part = i128::from(LONGEST / count);
    let rates = (0..i128::from(count)).map(|i| Segment {
        start: i * part,
        end: (i + 1) * part,
        val: 100,
    });
    let delay = Segment {
        start: 0,
        end: LONGEST.into(),
        val: 5,
    };
    (rates.collect(), vec![delay])
}

// ---------------------------------------------------------------------------
// The calls

#[derive(Clone, Copy)]
struct Load {
    size: u64,
    priority: u8,
}

const TEN_TICKS: Load = Load {
    size: 1_000,
    priority: 0,
};

/// More than any of the contacts carries.
const TOO_LARGE: Load = Load {
    size: 1 << 38,
    priority: 0,
};

impl Load {
    fn original(self) -> Bundle {
        Bundle {
            priority: self.priority as i8,
            size: self.size.into(),
            expiration: i128::MAX,
        }
    }

    fn ours(self) -> howrekano::Bundle {
        howrekano::Bundle {
            size: self.size,
            priority: self.priority,
        }
    }
}

const SPAN: TimeInterval = TimeInterval {
    start: 0,
    end: LONGEST as i128,
};

fn contact() -> ContactInfo {
    ContactInfo::new(NodeID::from(0), NodeID::from(1), SPAN.start, SPAN.end)
}

/// The same contact twice.
struct Pair<M: ContactManager, R: Adapts> {
    original: M,
    ours: Manager<R>,
    /// A copy of the original: its queue manager cannot be cloned.
    copy: fn(&M) -> M,
}

impl<M: ContactManager> Pair<M, record::FreeVolume> {
    /// The room left. The original has no such figure: beside it stands what its
    /// user does, the list added up.
    fn room(&self, name: &str) {
        let record = *self.ours.record();
        let list = self.ours.list();
        row(
            &format!("{name}: room"),
            &mut || {
                each(|| {
                    let list = black_box(list).iter();
                    list.map(|segment| i128::from(segment.volume)).sum::<i128>()
                })
            },
            &mut || each(|| black_box(&self.ours).room()),
            &mut || each(|| black_box(&record).room_left()),
        );
    }
}

impl<M: ContactManager, R: Adapts> Pair<M, R> {
    fn open(original: M, parts: &R::Parts, copy: fn(&M) -> M) -> Result<Self, Refusal> {
        let (contact, ..) = Contact::try_new(contact(), original).ok_or(Refusal::WINDOW)?;
        let window = Interval {
            start: 0,
            end: LONGEST,
        };
        Ok(Pair {
            original: contact.manager,
            ours: R::open(window, parts)?,
            copy,
        })
    }

    /// What both offer.
    fn offer(&self, at: u64, load: Load) -> Result<(ContactManagerTxData, Offer), Refusal> {
        let theirs = self.original.dry_run_tx(SPAN, at.into(), &load.original());
        let theirs = theirs.ok_or(Refusal::NO_OFFER)?;
        let ours = self.ours.dry_run(at, load.ours())?;
        assert_eq!(theirs.send.start, ours.send.start.into());
        assert_eq!(theirs.send.end, ours.send.end.into());
        Ok((theirs, ours))
    }

    fn book(&mut self, at: u64, load: Load) -> Result<(), Refusal> {
        let (theirs, ours) = self.offer(at, load)?;
        let booked = self.original.schedule_tx(SPAN, theirs, &load.original());
        booked.map_err(|_| Refusal::NOT_OFFERED)?;
        self.ours.book(at, load.ours(), ours)
    }

    fn refused(&self, name: &str) {
        assert!(self.offer(0, TOO_LARGE).is_err());
        self.measure(name, "refused", 0, TOO_LARGE);
    }

    fn measure(&self, name: &str, call: &str, at: u64, load: Load) {
        let (bundle, ours) = (load.original(), load.ours());
        let record = *self.ours.record();
        let theirs = || {
            self.original
                .dry_run_tx(black_box(SPAN), black_box(at.into()), black_box(&bundle))
        };
        row(
            &format!("{name}: {call}"),
            &mut || each(theirs),
            &mut || each(|| black_box(&self.ours).dry_run(black_box(at), black_box(ours))),
            &mut || each(|| black_box(&record).dry_run(black_box(at), black_box(ours))),
        );
    }

    /// The booking alone, and a dry run with the booking of what it offers.
    fn booking(&self, name: &str, how: &str, at: u64, load: Load) {
        let (bundle, ours) = (load.original(), load.ours());
        let record = *self.ours.record();
        let Ok((dates, offer)) = self.offer(at, load) else {
            panic!("{name} has no offer to book");
        };
        row(
            &format!("{name}: booking {how}"),
            &mut || {
                each_of(
                    || (self.copy)(&self.original),
                    |copy| {
                        copy.schedule_tx(black_box(SPAN), black_box(dates), black_box(&bundle))
                            .is_ok()
                    },
                )
            },
            &mut || {
                each_of(
                    || self.ours,
                    |copy| {
                        copy.book(black_box(at), black_box(ours), black_box(offer))
                            .is_ok()
                    },
                )
            },
            &mut || {
                each_of(
                    || record,
                    |copy| {
                        copy.book(black_box(at), black_box(ours), black_box(offer))
                            .is_ok()
                    },
                )
            },
        );
        row(
            &format!("{name}: dry run, booking {how}"),
            &mut || {
                each_of(
                    || (self.copy)(&self.original),
                    |copy| {
                        let offer = copy.dry_run_tx(
                            black_box(SPAN),
                            black_box(at.into()),
                            black_box(&bundle),
                        );
                        offer.is_some_and(|offer| {
                            copy.schedule_tx(black_box(SPAN), offer, black_box(&bundle))
                                .is_ok()
                        })
                    },
                )
            },
            &mut || {
                each_of(
                    || self.ours,
                    |copy| {
                        let offer = copy.dry_run(black_box(at), black_box(ours));
                        offer.is_ok_and(|offer| {
                            copy.book(black_box(at), black_box(ours), offer).is_ok()
                        })
                    },
                )
            },
            &mut || {
                each_of(
                    || record,
                    |copy| {
                        let offer = copy.dry_run(black_box(at), black_box(ours));
                        offer.is_ok_and(|offer| {
                            copy.book(black_box(at), black_box(ours), offer).is_ok()
                        })
                    },
                )
            },
        );
    }
}

// ---------------------------------------------------------------------------
// The clock

fn row(
    name: &str,
    original: &mut dyn FnMut() -> f64,
    kept: &mut dyn FnMut() -> f64,
    total: &mut dyn FnMut() -> f64,
) {
    let mut least = [f64::MAX; 3];
    for _ in 0..ROUNDS {
        for (least, round) in least.iter_mut().zip([original(), kept(), total()]) {
            *least = least.min(round);
        }
    }
    let [original, kept, total] = least;
    println!(
        "{name:<60} {original:>9.1} {kept:>9.1} {total:>9.1} {:>7.2} {:>7.2}",
        kept / original,
        total / original
    );
}

/// Nanoseconds a call.
fn each<T>(mut call: impl FnMut() -> T) -> f64 {
    let start = Instant::now();
    for _ in 0..CALLS {
        black_box(call());
    }
    start.elapsed().as_nanos() as f64 / CALLS as f64
}

/// Nanoseconds a call that changes what it is made on: each is made on a copy.
fn each_of<T>(copy: impl Fn() -> T, mut call: impl FnMut(&mut T) -> bool) -> f64 {
    let mut spent = 0;
    for _ in 0..CALLS / COPIES {
        let mut copies: Vec<T> = (0..COPIES).map(|_| copy()).collect();
        let start = Instant::now();
        let mut done = true;
        for copy in &mut copies {
            done &= call(black_box(copy));
        }
        spent += start.elapsed().as_nanos();
        assert!(done, "a booking was refused");
        black_box(&copies);
    }
    spent as f64 / (CALLS / COPIES * COPIES) as f64
}
