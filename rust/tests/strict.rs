//! Document 02's R-7 through the package: contacts opened with the strict flag, in
//! which no send of no length is booked, beside those without it.

mod common;

use std::fmt::Debug;

use common::{book, book_stated, offered, refuses};
use howrekano::{
    Bundle, Choices, DelaySegment, Flags, FreeVolume, Interval, Manager, Offer, PolySeg, Polynome,
    PolynomialChoices, PrioritySeg, Queue, QueueChoices, RateSegment, Record, Refusal, record,
};

const OFF: u64 = 0;
const ON: u64 = 1;

/// Flags that there are not.
const NONE: [u64; 5] = [2, 3, 255, 1 << 32, u64::MAX];

/// The figures that a contact is opened with. A polynomial and a queue have the
/// first rate, and a queue the first delay.
#[derive(Clone, Copy)]
struct Pass<'a> {
    window: Interval,
    rates: &'a [RateSegment],
    delays: &'a [DelaySegment],
}

const RATE: u64 = 10;
const DELAY: u64 = 3;

/// Contact A of document 01.
const A: Pass = Pass {
    window: Interval { start: 0, end: 10 },
    rates: &[rate(0, 10, RATE)],
    delays: &[delay(0, 10, DELAY)],
};

/// Contact A's rate and delay, and ticks for a list that is full.
const LONG: Pass = Pass {
    window: Interval { start: 0, end: 200 },
    rates: &[rate(0, 200, RATE)],
    delays: &[delay(0, 200, DELAY)],
};

/// A slow stretch, a silent one and a fast one, and two delays.
const CHANGING: Pass = Pass {
    window: Interval { start: 0, end: 40 },
    rates: &[rate(0, 14, 3), rate(14, 18, 0), rate(18, 40, 7)],
    delays: &[delay(0, 22, 9), delay(22, 40, 2)],
};

const fn rate(start: u64, end: u64, rate: u64) -> RateSegment {
    RateSegment { start, end, rate }
}

const fn delay(start: u64, end: u64, delay: u64) -> DelaySegment {
    DelaySegment { start, end, delay }
}

const fn bundle(size: u64) -> Bundle {
    Bundle { size, priority: 0 }
}

/// Less than a tick of contact A carries, and what a tick carries.
const SMALL: Bundle = bundle(RATE - 1);
const TICK: Bundle = bundle(RATE);

const CLASSES: usize = 3;
const BUDGETS: [u64; CLASSES] = [90, 80, 70];

/// A manager, and how it is opened.
trait Flagged: Record<List: PartialEq + Debug> + Debug {
    /// How many settings there are beside the flag: editions or modes, with rules;
    /// or a queue's own flags. The first are the original's, or no flags.
    const SETTINGS: u64;

    fn open(setting: u64, strict: u64, pass: Pass) -> Result<Manager<Self>, Refusal>;

    /// Opens with nothing chosen.
    fn plain(pass: Pass) -> Result<Manager<Self>, Refusal>;

    /// Is a bundle smaller than a tick carries sent in no time?
    fn rounds_down(setting: u64) -> bool;

    /// The flag that a contact was opened with.
    fn strict(contact: &Manager<Self>) -> u64;

    /// The place of the flag in a record.
    fn flag(&mut self) -> &mut u64;

    fn bytes(contact: &Manager<Self>) -> Vec<u8>;
}

/// The number of an edition, a mode or a rule: two of each.
fn numbers(setting: u64) -> (u64, u64) {
    (1 + setting % 2, 1 + setting / 2)
}

/// A manager of a contact with rates.
macro_rules! rated {
    ($($name:ident)*) => {$(
        impl Flagged for record::$name {
            const SETTINGS: u64 = 4;

            fn open(setting: u64, strict: u64, pass: Pass) -> Result<$name, Refusal> {
                let (edition, rule) = numbers(setting);
                let choices = Choices { edition, rule, strict };
                $name::open_with(choices, pass.window, pass.rates, pass.delays)
            }

            fn plain(pass: Pass) -> Result<$name, Refusal> {
                $name::open(pass.window, pass.rates, pass.delays)
            }

            fn rounds_down(setting: u64) -> bool {
                numbers(setting).0 == 1
            }

            fn strict(contact: &$name) -> u64 {
                contact.choices().strict
            }

            fn flag(&mut self) -> &mut u64 {
                &mut self.contact.choices.strict
            }

            fn bytes(contact: &$name) -> Vec<u8> {
                contact.to_bytes()
            }
        }
    )*};
}

rated!(FreeVolume PrioritySeg);

/// The polynomial that is a pass's first rate.
fn flat(pass: Pass) -> Polynome {
    Polynome {
        coefficients: [pass.rates[0].rate as i64, 0, 0, 0],
        offset: 0,
    }
}

impl Flagged for record::PolySeg {
    const SETTINGS: u64 = 4;

    fn open(setting: u64, strict: u64, pass: Pass) -> Result<PolySeg, Refusal> {
        let (mode, rule) = numbers(setting);
        let choices = PolynomialChoices { mode, rule, strict };
        PolySeg::open_with(choices, pass.window, flat(pass), pass.delays)
    }

    fn plain(pass: Pass) -> Result<PolySeg, Refusal> {
        PolySeg::open(pass.window, flat(pass), pass.delays)
    }

    fn rounds_down(_: u64) -> bool {
        false
    }

    fn strict(contact: &PolySeg) -> u64 {
        contact.choices().strict
    }

    fn flag(&mut self) -> &mut u64 {
        &mut self.choices.strict
    }

    fn bytes(contact: &PolySeg) -> Vec<u8> {
        contact.to_bytes()
    }
}

/// A queue's flags as bits.
const ADD_DELAY: u64 = 1;
const SELF_UPDATE: u64 = 2;
const BUDGETED: u64 = 4;

impl Flagged for record::Queue {
    const SETTINGS: u64 = 8;

    fn open(setting: u64, strict: u64, pass: Pass) -> Result<Queue, Refusal> {
        let flags = Flags {
            add_delay: setting & ADD_DELAY != 0,
            self_update: setting & SELF_UPDATE != 0,
            budgeted: setting & BUDGETED != 0,
        };
        let budgets: &[u64] = if flags.budgeted { &BUDGETS } else { &[] };
        let choices = QueueChoices { strict };
        let (rate, delay) = (pass.rates[0].rate, pass.delays[0].delay);
        Queue::open_with(choices, pass.window, rate, delay, CLASSES, flags, budgets)
    }

    fn plain(pass: Pass) -> Result<Queue, Refusal> {
        let (rate, delay) = (pass.rates[0].rate, pass.delays[0].delay);
        Queue::open(pass.window, rate, delay, CLASSES, Flags::default(), &[])
    }

    fn rounds_down(_: u64) -> bool {
        true
    }

    fn strict(contact: &Queue) -> u64 {
        contact.choices().strict
    }

    fn flag(&mut self) -> &mut u64 {
        &mut self.choices.strict
    }

    fn bytes(contact: &Queue) -> Vec<u8> {
        contact.to_bytes()
    }
}

/// The same of each manager with a list of times.
macro_rules! each_listed {
    ($claim:ident) => {
        $claim::<record::FreeVolume>();
        $claim::<record::PrioritySeg>();
        $claim::<record::PolySeg>();
    };
}

/// The same of each manager.
macro_rules! each {
    ($claim:ident) => {
        each_listed!($claim);
        $claim::<record::Queue>();
    };
}

fn opened<R: Flagged>(setting: u64, strict: u64, pass: Pass) -> Manager<R> {
    R::open(setting, strict, pass).unwrap()
}

/// The settings in which a small bundle is sent in no time, or the others.
fn settings<R: Flagged>(rounds_down: bool) -> impl Iterator<Item = u64> {
    (0..R::SETTINGS).filter(move |setting| R::rounds_down(*setting) == rounds_down)
}

/// The same record with this flag.
fn flagged<R: Flagged>(contact: &Manager<R>, strict: u64) -> Manager<R> {
    let mut record = *contact.record();
    *record.flag() = strict;
    Manager::from_record(record).unwrap()
}

const fn has_no_length(offer: Offer) -> bool {
    offer.send.start == offer.send.end
}

/// The booking is refused with this number, and no byte of the record changes.
fn leaves<R: Flagged>(
    contact: &Manager<R>,
    at: u64,
    bundle: Bundle,
    offer: Offer,
    refusal: Refusal,
) {
    let mut after = *contact;
    let booked = book_stated(&mut after, at, bundle, offer);
    assert_eq!(booked, Err(refusal), "{bundle:?} at {at}: {offer:?}");
    assert_eq!(after, *contact);
    assert_eq!(R::bytes(&after), R::bytes(contact));
}

// ---------------------------------------------------------------------------
// A dry run shows the offer, and booking it is refused

/// The dates of a send of no length in contact A.
const fn at_once(date: u64) -> Offer {
    let received = date + DELAY;
    Offer {
        send: Interval {
            start: date,
            end: date,
        },
        recv: Interval {
            start: received,
            end: received,
        },
    }
}

fn shown_and_refused<R: Flagged>() {
    for setting in settings::<R>(true) {
        let [off, on] = [OFF, ON].map(|strict| opened::<R>(setting, strict, A));
        for (at, size) in (0..10).flat_map(|at| (1..RATE).map(move |size| (at, size))) {
            let (small, shown) = (bundle(size), at_once(at));
            assert_eq!(offered(&off, at, small), Ok(shown));
            assert_eq!(offered(&on, at, small), Ok(shown));
            assert_eq!(book(&mut off.clone(), at, small), Ok(shown));
            leaves(&on, at, small, shown, Refusal::ZERO_LENGTH);
        }
    }
}

#[test]
fn a_dry_run_shows_a_send_of_no_length_and_booking_it_is_refused() {
    each!(shown_and_refused);
    assert_eq!(Refusal::ZERO_LENGTH.number(), 17);
    let words = Refusal::ZERO_LENGTH.to_string();
    assert!(words.contains("edition 2") && words.contains("strict 0"));
}

/// What takes a tick or more is booked by both alike.
fn booked_alike<R: Flagged>() {
    for setting in 0..R::SETTINGS {
        let [mut off, mut on] = [OFF, ON].map(|strict| opened::<R>(setting, strict, A));
        for (at, size) in [(3, 10), (0, 19), (7, 11), (0, 20)] {
            let offer = book(&mut off, at, bundle(size));
            assert!(offer.is_ok_and(|offer| !has_no_length(offer)), "{offer:?}");
            assert_eq!(book(&mut on, at, bundle(size)), offer);
            assert_eq!(on, flagged(&off, ON));
            assert_eq!(R::strict(&on), ON);
            assert_eq!(R::strict(&off), OFF);
        }
    }
}

#[test]
fn what_takes_a_tick_is_booked_as_without_the_flag() {
    each!(booked_alike);
}

/// Edition 2 and both modes give a small bundle its tick.
fn takes_its_tick<R: Flagged>() {
    for setting in settings::<R>(false) {
        let [mut off, mut on] = [OFF, ON].map(|strict| opened::<R>(setting, strict, A));
        let offer = book(&mut on, 5, SMALL).unwrap();
        assert_eq!(offer.send, Interval { start: 5, end: 6 });
        assert_eq!(book(&mut off, 5, SMALL), Ok(offer));
        assert_eq!(on, flagged(&off, ON));
    }
}

#[test]
fn under_edition_2_and_with_a_polynomial_a_small_bundle_is_booked() {
    each_listed!(takes_its_tick);
}

/// A delay that falls by one tick has a tick's bundle received in no time. That is no
/// send of no length.
fn received_at_once<R: Flagged>() {
    let pass = Pass {
        delays: &[delay(0, 5, 10), delay(5, 10, 9)],
        ..A
    };
    for setting in 0..R::SETTINGS {
        let (_, rule) = numbers(setting);
        // Rule 1 has the longer delay at 5, and rule 2 the shorter one.
        let at = if rule == 1 { 5 } else { 4 };
        let offer = book(&mut opened::<R>(setting, ON, pass), at, TICK).unwrap();
        assert_eq!(offer.send.end, at + 1);
        assert_eq!(offer.recv.start, offer.recv.end);
    }
}

#[test]
fn what_is_received_in_no_time_is_booked() {
    each_listed!(received_at_once);
}

/// Case 3: without the flag the rest of the stretch is gone.
#[test]
fn a_free_stretch_keeps_its_rest() {
    for (strict, room) in [(OFF, 50), (ON, 100)] {
        let mut contact = opened::<record::FreeVolume>(0, strict, A);
        let _ = book(&mut contact, 5, SMALL);
        assert_eq!(contact.room(), room);
        assert_eq!(contact.record().room_left(), Ok(room));
        assert_eq!(offered(&contact, 5, TICK).is_ok(), strict == ON);
    }
}

/// Case 9: without the flag an empty stretch is listed, and hides the whole pass.
#[test]
fn no_empty_stretch_hides_a_start() {
    for (strict, listed, whole) in [(OFF, 3, None), (ON, 1, Some((0, 10)))] {
        let mut contact = opened::<record::PrioritySeg>(0, strict, A);
        let _ = book(&mut contact, 5, SMALL);
        assert_eq!(contact.list().len(), listed);
        let offer = offered(&contact, 0, bundle(10 * RATE)).ok();
        assert_eq!(offer.map(|o| (o.send.start, o.send.end)), whole);
    }
}

// ---------------------------------------------------------------------------
// The order: 1, 2, 9, 17, and then 10 or 13

fn after_9<R: Flagged>() {
    for setting in settings::<R>(true) {
        for strict in [OFF, ON] {
            let contact = opened::<R>(setting, strict, A);
            let not_offered =
                |bundle, offer| leaves(&contact, 5, bundle, offer, Refusal::NOT_OFFERED);
            // Other dates, of no length too, and the right ones for another size.
            let mut late = at_once(5);
            late.recv.end += 1;
            for offer in [at_once(4), at_once(6), Offer::default(), late] {
                not_offered(SMALL, offer);
            }
            not_offered(TICK, at_once(5));
            not_offered(bundle(1000), at_once(5));
            not_offered(SMALL, offered(&contact, 5, TICK).unwrap());
        }
    }
}

#[test]
fn dates_that_are_not_offered_are_9_first() {
    each!(after_9);
}

fn after_2<R: Flagged>() {
    for setting in settings::<R>(true) {
        let contact = opened::<R>(setting, ON, A);
        let shown = offered(&contact, 5, SMALL).unwrap();
        let highest = Bundle {
            priority: 128,
            ..SMALL
        };
        for bundle in [bundle(0), bundle((1 << 38) + 1), highest] {
            leaves(&contact, 5, bundle, shown, Refusal::BUNDLE);
        }
        leaves(&contact, (1 << 40) + 1, SMALL, shown, Refusal::BUNDLE);
        leaves(&contact, 5, SMALL, shown, Refusal::ZERO_LENGTH);
    }
}

#[test]
fn a_bundle_outside_its_limits_is_2_first() {
    each!(after_2);
}

/// A damaged record is 1, though its flag and the offer would be 17.
fn after_1<R: Flagged>(damage: impl Fn(&mut R)) {
    for setting in settings::<R>(true) {
        let contact = opened::<R>(setting, ON, A);
        let shown = offered(&contact, 5, SMALL).unwrap();
        let mut record = *contact.record();
        assert_eq!(record.book(5, SMALL, shown), Err(Refusal::ZERO_LENGTH));
        damage(&mut record);
        assert_eq!(record.book(5, SMALL, shown), Err(Refusal::RECORD));
        refuses(record);
    }
}

#[test]
fn a_damaged_record_is_1_first() {
    after_1::<record::FreeVolume>(|record| record.room += 1);
    after_1::<record::PrioritySeg>(|record| record.bookings.segments[0].end -= 1);
    after_1::<record::Queue>(|record| record.queues[CLASSES] = 1);
}

/// Books a tick in every second one, until the list is full.
fn filled<R: Flagged>(setting: u64, strict: u64) -> (Manager<R>, u64) {
    let mut contact = opened::<R>(setting, strict, LONG);
    let mut ticks = (1..LONG.window.end).step_by(2);
    let full = ticks.find(|at| book(&mut contact, *at, TICK) == Err(Refusal::FULL));
    (contact, full.unwrap())
}

/// What a small bundle is answered where the list is full, with the flag off and on.
fn at_full<R: Flagged>(setting: u64) -> [Option<Refusal>; 2] {
    let [(off, at), (on, beside)] = [OFF, ON].map(|strict| filled::<R>(setting, strict));
    assert_eq!(at, beside);
    assert_eq!(on, flagged(&off, ON));
    let offer = offered(&off, at, TICK).unwrap();
    leaves(&off, at, TICK, offer, Refusal::FULL);
    leaves(&on, at, TICK, offer, Refusal::FULL);
    let small = offered(&off, at, SMALL).unwrap();
    [off, on].map(|contact| {
        let mut after = contact;
        let refusal = book_stated(&mut after, at, SMALL, small).err();
        assert_eq!(after == contact, refusal.is_some());
        refusal
    })
}

/// A free stretch that is cut without a right part takes no place; an empty one
/// inside a priority stretch takes two.
#[test]
fn a_full_list_is_10_after_17() {
    let (full, zero) = (Some(Refusal::FULL), Some(Refusal::ZERO_LENGTH));
    for setting in settings::<record::FreeVolume>(true) {
        assert_eq!(at_full::<record::FreeVolume>(setting), [None, zero]);
    }
    for setting in settings::<record::PrioritySeg>(true) {
        assert_eq!(at_full::<record::PrioritySeg>(setting), [full, zero]);
    }
    for setting in settings::<record::FreeVolume>(false) {
        assert_eq!(at_full::<record::FreeVolume>(setting), [full; 2]);
        assert_eq!(at_full::<record::PrioritySeg>(setting), [full; 2]);
    }
    for setting in settings::<record::PolySeg>(false) {
        assert_eq!(at_full::<record::PolySeg>(setting), [full; 2]);
    }
}

/// The most that a queue holds.
const QUEUE_MAX: u64 = 1 << 41;

/// A queue below the bundle's class is full, which no calls from an opening bring
/// about: such a record comes from elsewhere.
#[test]
fn a_full_queue_is_13_after_17() {
    for setting in [SELF_UPDATE, SELF_UPDATE | ADD_DELAY] {
        let class_1 = |size| Bundle { size, priority: 1 };
        let [off, on] = [OFF, ON].map(|strict| {
            let mut record = *opened::<record::Queue>(setting, strict, A).record();
            record.queues[0] = QUEUE_MAX;
            Manager::from_record(record).unwrap()
        });
        for (size, refusals) in [
            (RATE - 1, [Refusal::QUEUE, Refusal::ZERO_LENGTH]),
            (RATE, [Refusal::QUEUE; 2]),
        ] {
            let offer = offered(&off, 5, class_1(size)).unwrap();
            assert_eq!(has_no_length(offer), size < RATE);
            assert_eq!(offered(&on, 5, class_1(size)), Ok(offer));
            leaves(&off, 5, class_1(size), offer, refusals[0]);
            leaves(&on, 5, class_1(size), offer, refusals[1]);
        }
    }
}

/// Without self-update a booking enqueues nothing, and is 17 all the same.
#[test]
fn a_queue_that_does_not_update_itself_refuses_too() {
    for setting in [0, ADD_DELAY, BUDGETED, ADD_DELAY | BUDGETED] {
        let [mut off, on] = [OFF, ON].map(|strict| opened::<record::Queue>(setting, strict, A));
        let before = off;
        book(&mut off, 5, SMALL).unwrap();
        assert_eq!(off, before);
        leaves(&on, 5, SMALL, at_once(5), Refusal::ZERO_LENGTH);
    }
}

#[test]
fn manual_queueing_takes_small_bundles() {
    for setting in 0..record::Queue::SETTINGS {
        let [mut off, mut on] = [OFF, ON].map(|strict| opened::<record::Queue>(setting, strict, A));
        let self_update = setting & SELF_UPDATE != 0;
        for (size, priority) in [(1, 0), (9, 2), (10, 1), (9, 1), (3, 0)] {
            let small = Bundle { size, priority };
            let mut record = *on.record();
            let queued = off.enqueue(small);
            assert_eq!(queued.err(), self_update.then_some(Refusal::SELF_UPDATE));
            assert_eq!(on.enqueue(small), queued);
            assert_eq!(record.enqueue(small), queued);
            assert_eq!(record, *on.record());
            assert_eq!(on, flagged(&off, ON));
        }
        for (size, priority) in [(9, 2), (9, 2), (1, 0), (3, 1), (7, 1), (0, 0)] {
            let small = Bundle { size, priority };
            let mut record = *on.record();
            let taken = off.dequeue(small);
            assert_eq!(on.dequeue(small), taken);
            assert_eq!(record.dequeue(small), taken);
            assert_eq!(record, *on.record());
            assert_eq!(on, flagged(&off, ON));
        }
        let left: &[u64] = if self_update { &[0; 3] } else { &[12, 9, 0] };
        assert_eq!(on.list(), left);
    }
}

// ---------------------------------------------------------------------------
// What is opened, and what is refused

fn the_originals<R: Flagged>() {
    let plain = R::plain(A);
    assert_eq!(plain, R::open(0, OFF, A));
    assert_eq!(plain.map(|contact| R::strict(&contact)), Ok(OFF));
}

#[test]
fn open_has_no_flag() {
    assert_eq!(Choices::default().strict, OFF);
    assert_eq!(PolynomialChoices::default().strict, OFF);
    assert_eq!(QueueChoices::default().strict, OFF);
    each!(the_originals);
}

fn only_the_flag<R: Flagged>() {
    for setting in 0..R::SETTINGS {
        let [off, on] = [OFF, ON].map(|strict| opened::<R>(setting, strict, A));
        assert_ne!(off, on);
        assert_ne!(R::bytes(&off), R::bytes(&on));
        assert_eq!(flagged(&off, ON), on);
        assert_eq!(flagged(&on, OFF), off);
    }
}

#[test]
fn two_contacts_that_differ_in_the_flag_differ_in_nothing_else() {
    each!(only_the_flag);
}

fn before_all_else<R: Flagged>() {
    let backward = Interval { start: 10, end: 0 };
    let long = [delay(0, 10, (1 << 40) + 1)];
    let [no_window, no_delay] = [
        Pass {
            window: backward,
            ..A
        },
        Pass { delays: &long, ..A },
    ];
    for (pass, refused) in [
        (A, None),
        (no_window, Some(Refusal::WINDOW)),
        (no_delay, Some(Refusal::DELAYS)),
    ] {
        for setting in 0..R::SETTINGS {
            let open = |strict| R::open(setting, strict, pass).err();
            assert_eq!(open(OFF), refused);
            assert_eq!(open(ON), refused);
            for none in NONE {
                assert_eq!(open(none), Some(Refusal::CHOICE), "{none}");
            }
        }
    }
}

#[test]
fn a_flag_that_there_is_not_is_refused_before_all_else() {
    each!(before_all_else);
    assert!(Refusal::CHOICE.to_string().contains("strict 0 or 1"));
}

/// 2, then 3, 6, 5 and 14, as before: all of them wrong at first.
#[test]
fn a_queues_openings_are_refused_in_order() {
    let backward = Interval { start: 10, end: 0 };
    let flags = Flags::default();
    let open = |strict, window, rate, delay, classes| {
        Queue::open_with(
            QueueChoices { strict },
            window,
            rate,
            delay,
            classes,
            flags,
            &[],
        )
        .err()
    };
    let (window, late) = (A.window, (1 << 40) + 1);
    assert_eq!(open(2, backward, 0, late, 0), Some(Refusal::CHOICE));
    assert_eq!(open(2, window, RATE, DELAY, 0), Some(Refusal::CHOICE));
    for strict in [OFF, ON] {
        assert_eq!(open(strict, backward, 0, late, 0), Some(Refusal::WINDOW));
        assert_eq!(open(strict, window, 0, late, 0), Some(Refusal::VOLUME));
        assert_eq!(open(strict, window, RATE, late, 0), Some(Refusal::DELAYS));
        assert_eq!(open(strict, window, RATE, DELAY, 0), Some(Refusal::CLASSES));
        assert_eq!(open(strict, window, RATE, DELAY, CLASSES), None);
    }
    // More budgets than there are places.
    let nine = |strict| {
        let choices = QueueChoices { strict };
        Queue::open_with(choices, window, RATE, DELAY, CLASSES, flags, &[0; 9]).err()
    };
    assert_eq!(nine(2), Some(Refusal::CHOICE));
    assert_eq!(nine(ON), Some(Refusal::CLASSES));
}

fn damaged<R: Flagged>() {
    for setting in 0..R::SETTINGS {
        let mut record = *opened::<R>(setting, ON, A).record();
        for none in NONE {
            *record.flag() = none;
            refuses(record);
        }
    }
}

#[test]
fn a_record_of_a_flag_that_there_is_not_is_damaged() {
    each!(damaged);
    for none in NONE {
        let mut record = *opened::<record::FreeVolume>(0, ON, A).record();
        record.contact.choices.strict = none;
        assert_eq!(record.room_left(), Err(Refusal::RECORD));
        let mut record = *opened::<record::Queue>(0, ON, A).record();
        record.choices.strict = none;
        let before = record;
        assert_eq!(record.enqueue(SMALL), Err(Refusal::RECORD));
        assert_eq!(record.dequeue(SMALL), Err(Refusal::RECORD));
        assert_eq!(record, before);
    }
}

// ---------------------------------------------------------------------------
// Every other call, with the flag and without it

/// Makes the call with the flag off and on. They differ in the booking of a send of
/// no length that is offered, and in nothing else. Answers whether they did.
fn both<R: Flagged>(
    off: &mut Manager<R>,
    on: &mut Manager<R>,
    at: u64,
    bundle: Bundle,
    stated: Offer,
) -> bool {
    let offer = offered(off, at, bundle);
    assert_eq!(offered(on, at, bundle), offer);
    if offer == Ok(stated) && has_no_length(stated) {
        leaves(on, at, bundle, stated, Refusal::ZERO_LENGTH);
        let booked = book_stated(off, at, bundle, stated);
        assert_ne!(booked, Err(Refusal::ZERO_LENGTH));
        return true;
    }
    let booked = book_stated(off, at, bundle, stated);
    assert_ne!(booked, Err(Refusal::ZERO_LENGTH));
    assert_eq!(book_stated(on, at, bundle, stated), booked);
    assert_eq!(*on, flagged(off, ON));
    assert_eq!(on.record().listed(), off.record().listed());
    false
}

/// Numbers below a bound, by Knuth's linear congruence: the same at every run.
fn numbers_from(seed: u64) -> impl FnMut(u64) -> u64 {
    let mut state = seed;
    move |bound| {
        state = state
            .wrapping_mul(6_364_136_223_846_793_005)
            .wrapping_add(1_442_695_040_888_963_407);
        (state >> 33) % bound
    }
}

/// Calls on a contact that goes on with this flag, each beside the same call with
/// the other; how many of them differ.
fn run<R: Flagged>(setting: u64, strict: u64, seed: u64) -> u32 {
    let mut below = numbers_from(seed);
    let mut contact = opened::<R>(setting, strict, CHANGING);
    let mut differing = 0;
    for _ in 0..120 {
        let at = below(CHANGING.window.end + 2);
        let bundle = Bundle {
            size: below(12),
            priority: below(3) as u8,
        };
        let mut stated = offered(&contact, at, bundle).unwrap_or_default();
        match below(8) {
            0 => stated.recv.end += 1,
            1 => stated.send.end = stated.send.start,
            _ => {}
        }
        let [mut off, mut on] = [OFF, ON].map(|strict| flagged(&contact, strict));
        differing += u32::from(both(&mut off, &mut on, at, bundle, stated));
        contact = if strict == ON { on } else { off };
    }
    differing
}

fn runs<R: Flagged>() {
    for (setting, strict) in (0..R::SETTINGS).flat_map(|s| [(s, OFF), (s, ON)]) {
        let differing: u32 = (0..10).map(|seed| run::<R>(setting, strict, seed)).sum();
        match R::rounds_down(setting) {
            true => assert!(differing > 50, "{differing} calls say little"),
            false => assert_eq!(differing, 0),
        }
    }
}

#[test]
fn every_other_call_answers_and_alters_the_record_as_without_the_flag() {
    each!(runs);
}

/// Three ticks that carry two each.
const SHORT: Pass = Pass {
    window: Interval { start: 0, end: 3 },
    rates: &[rate(0, 3, 2)],
    delays: &[delay(0, 3, DELAY)],
};

/// Every call that the short pass can take.
fn calls() -> impl Iterator<Item = (u64, Bundle)> {
    (0..3).flat_map(|at| {
        let bundles = (1..5).flat_map(|size| [0, 1].map(|priority| Bundle { size, priority }));
        bundles.map(move |bundle| (at, bundle))
    })
}

/// Every run of so many bookings, each beside the same with the other flag; how
/// many of them differ.
fn all_runs<R: Flagged>(contact: &Manager<R>, length: u32) -> u32 {
    if length == 0 {
        return 0;
    }
    let differing = calls().map(|(at, bundle)| {
        let stated = offered(contact, at, bundle).unwrap_or_default();
        let [mut off, mut on] = [OFF, ON].map(|strict| flagged(contact, strict));
        let differ = both(&mut off, &mut on, at, bundle, stated);
        let next = if R::strict(contact) == ON { on } else { off };
        // What changes nothing leads to the same runs again.
        let further = match next == *contact {
            true => 0,
            false => all_runs(&next, length - 1),
        };
        u32::from(differ) + further
    });
    differing.sum()
}

fn short_runs<R: Flagged>() {
    for (setting, strict) in (0..R::SETTINGS).flat_map(|s| [(s, OFF), (s, ON)]) {
        let differing = all_runs(&opened::<R>(setting, strict, SHORT), 3);
        assert_eq!(differing > 0, R::rounds_down(setting), "{differing}");
    }
}

#[test]
fn every_run_of_three_bookings_on_a_short_pass_differs_there_alone() {
    each!(short_runs);
}

// ---------------------------------------------------------------------------
// What the flag keeps true

/// Does a contact ever list an empty stretch, booked at random?
fn lists_an_empty_stretch(setting: u64, strict: u64, seed: u64) -> bool {
    let mut below = numbers_from(seed);
    let mut contact = opened::<record::PrioritySeg>(setting, strict, CHANGING);
    let mut booked = 0;
    let found = (0..300).any(|_| {
        let at = below(CHANGING.window.end);
        let bundle = Bundle {
            size: 1 + below(20),
            priority: below(5) as u8,
        };
        booked += u32::from(book(&mut contact, at, bundle).is_ok());
        contact.list().iter().any(|s| s.start == s.end)
    });
    assert!(found || booked > 5, "{booked} bookings say little");
    found
}

#[test]
fn a_strict_priority_contact_lists_no_empty_stretch() {
    for setting in settings::<record::PrioritySeg>(true) {
        let [off, on] = [OFF, ON].map(|strict| {
            let seeds = (0..20).filter(|seed| lists_an_empty_stretch(setting, strict, *seed));
            seeds.count()
        });
        assert!(off > 10, "{off} runs say little");
        assert_eq!(on, 0);
    }
}

/// How many bundles of one priority and at most three units are booked, asked for
/// before this time.
fn accepted<R: Flagged>(setting: u64, strict: u64, before: u64) -> u64 {
    let mut below = numbers_from(before);
    let mut contact = opened::<R>(setting, strict, CHANGING);
    let asked = (0..2000).filter(|_| {
        let (at, size) = (below(before), 1 + below(3));
        book(&mut contact, at, bundle(size)).is_ok()
    });
    asked.count() as u64
}

/// Each booking takes a tick that no other of its priority has.
fn within_ticks<R: Flagged>(setting: u64) {
    let ticks = CHANGING.window.end;
    for before in [1, 10, ticks] {
        let booked = accepted::<R>(setting, ON, before);
        assert!((5..=ticks).contains(&booked), "{booked} bookings");
    }
    // Without the flag there can be more.
    let booked = accepted::<R>(setting, OFF, 1);
    assert_eq!(booked > ticks, R::rounds_down(setting), "{booked}");
}

#[test]
fn there_are_at_most_as_many_bookings_as_ticks() {
    for setting in 0..4 {
        within_ticks::<record::FreeVolume>(setting);
        within_ticks::<record::PrioritySeg>(setting);
        within_ticks::<record::PolySeg>(setting);
    }
    // A queue has room for what its ticks carry, if bookings enqueue.
    for setting in (0..record::Queue::SETTINGS).filter(|s| s & SELF_UPDATE != 0) {
        within_ticks::<record::Queue>(setting);
    }
}
