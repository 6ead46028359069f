//! Document 01's eleven cases and its limits, through the package.

use howrekano::{
    Bundle, DelaySegment, Flags, FreeVolume, Interval, Offer, PolySeg, Polynome, PrioritySeg,
    Queue, RateSegment, Refusal,
};

const WINDOW: Interval = Interval { start: 0, end: 10 };
const RATE: RateSegment = rate(0, 10, 10);
const DELAY: DelaySegment = delay(0, 10, 3);

const fn rate(start: u64, end: u64, rate: u64) -> RateSegment {
    RateSegment { start, end, rate }
}

const fn delay(start: u64, end: u64, delay: u64) -> DelaySegment {
    DelaySegment { start, end, delay }
}

const fn bundle(size: u64, priority: u8) -> Bundle {
    Bundle { size, priority }
}

fn free() -> FreeVolume {
    FreeVolume::open(WINDOW, &[RATE], &[DELAY]).unwrap()
}

fn priority() -> PrioritySeg {
    PrioritySeg::open(WINDOW, &[RATE], &[DELAY]).unwrap()
}

fn polynomial(coefficients: [i64; 4]) -> PolySeg {
    let polynome = Polynome {
        coefficients,
        offset: 0,
    };
    PolySeg::open(WINDOW, polynome, &[DELAY]).unwrap()
}

fn sent(offer: Offer) -> (u64, u64) {
    (offer.send.start, offer.send.end)
}

fn received(offer: Offer) -> (u64, u64) {
    (offer.recv.start, offer.recv.end)
}

/// Books what is offered.
macro_rules! book {
    ($manager:expr, $at:expr, $bundle:expr) => {{
        let offer = $manager.dry_run($at, $bundle).unwrap();
        $manager.book($at, $bundle, offer).unwrap();
        offer
    }};
}

fn volumes(manager: &FreeVolume) -> Vec<(u64, u64, u64)> {
    let listed = manager.list().iter();
    listed.map(|s| (s.start, s.end, s.volume)).collect()
}

fn bookings(manager: &PrioritySeg) -> Vec<(u64, u64, Option<u8>)> {
    let listed = manager.list().iter();
    listed.map(|s| (s.start, s.end, s.priority())).collect()
}

#[test]
fn case_1_inside_a_segment() {
    let mut manager = free();
    let offer = book!(manager, 3, bundle(15, 0));
    assert_eq!((sent(offer), received(offer)), ((3, 4), (6, 7)));
    assert_eq!(volumes(&manager), [(0, 3, 30), (4, 10, 60)]);
}

#[test]
fn case_2_at_its_start() {
    let mut manager = free();
    assert_eq!(sent(book!(manager, 0, bundle(15, 0))), (0, 1));
    assert_eq!(volumes(&manager), [(1, 10, 85)]);
}

#[test]
fn case_3_of_no_length() {
    let mut manager = free();
    assert_eq!(sent(book!(manager, 5, bundle(9, 0))), (5, 5));
    assert_eq!(volumes(&manager), [(0, 5, 50)]);
}

#[test]
fn case_4_the_whole_window() {
    let mut manager = free();
    assert_eq!(manager.dry_run(0, bundle(101, 0)), Err(Refusal::NO_OFFER));
    assert_eq!(sent(book!(manager, 0, bundle(100, 0))), (0, 10));
    assert_eq!(volumes(&manager), [(10, 10, 0)]);
}

#[test]
fn case_5_before_a_booking() {
    let mut manager = free();
    book!(manager, 5, bundle(50, 0));
    assert_eq!(sent(manager.dry_run(3, bundle(29, 0)).unwrap()), (3, 5));
    assert_eq!(manager.dry_run(3, bundle(30, 0)), Err(Refusal::NO_OFFER));
}

#[test]
fn case_6_two_rates() {
    let rates = [rate(0, 4, 2), rate(4, 10, 5)];
    let manager = FreeVolume::open(WINDOW, &rates, &[DELAY]).unwrap();
    for size in [11, 14] {
        assert_eq!(manager.dry_run(1, bundle(size, 0)).unwrap().send.end, 5);
    }
}

#[test]
fn case_7_two_delays() {
    let delays = [delay(0, 4, 10), delay(4, 10, 2)];
    let manager = FreeVolume::open(WINDOW, &[RATE], &delays).unwrap();
    let offer = manager.dry_run(4, bundle(10, 0)).unwrap();
    assert_eq!((sent(offer), received(offer)), ((4, 5), (14, 7)));
}

#[test]
fn case_8_a_higher_priority() {
    let mut manager = priority();
    book!(manager, 2, bundle(30, 1));
    let first = [(0, 2, None), (2, 5, Some(1)), (5, 10, None)];
    assert_eq!(bookings(&manager), first);
    assert_eq!(sent(manager.dry_run(0, bundle(30, 1)).unwrap()), (5, 8));
    assert_eq!(sent(book!(manager, 0, bundle(30, 2))), (0, 3));
    let then = [
        (0, 2, Some(2)),
        (2, 3, Some(2)),
        (3, 5, Some(1)),
        (5, 10, None),
    ];
    assert_eq!(bookings(&manager), then);
}

#[test]
fn case_9_an_empty_booking() {
    let mut manager = priority();
    book!(manager, 5, bundle(9, 0));
    let listed = [(0, 5, None), (5, 5, Some(0)), (5, 10, None)];
    assert_eq!(bookings(&manager), listed);
    assert_eq!(manager.dry_run(0, bundle(100, 0)), Err(Refusal::NO_OFFER));
}

#[test]
fn case_10_polynomials() {
    for size in [15, 20] {
        let offer = polynomial([10, 0, 0, 0]).dry_run(3, bundle(size, 0));
        assert_eq!(sent(offer.unwrap()), (3, 5));
    }
    let none = polynomial([0, 1, 0, 0]).dry_run(3, bundle(1, 0));
    assert_eq!(none, Err(Refusal::NO_OFFER));
}

#[test]
fn case_11_queues() {
    let flags = Flags {
        add_delay: true,
        self_update: true,
        budgeted: false,
    };
    let mut manager = Queue::open(WINDOW, 10, 2, 3, flags, &[]).unwrap();
    let offer = book!(manager, 0, bundle(25, 1));
    assert_eq!((sent(offer), received(offer)), ((0, 2), (2, 4)));
    assert_eq!(manager.list(), [25, 25, 0]);
    assert_eq!(sent(manager.dry_run(0, bundle(25, 0)).unwrap()), (2, 4));
    assert_eq!(manager.enqueue(bundle(1, 0)), Err(Refusal::SELF_UPDATE));
}

#[test]
fn manual_queueing_goes_there_and_back() {
    let mut manager = Queue::open(WINDOW, 10, 2, 3, Flags::default(), &[]).unwrap();
    let before = manager;
    manager.enqueue(bundle(25, 1)).unwrap();
    assert_eq!(manager.list(), [25, 25, 0]);
    assert_eq!(manager.dequeue(bundle(26, 0)), Err(Refusal::QUEUE));
    manager.dequeue(bundle(25, 1)).unwrap();
    assert_eq!(manager, before);
}

#[test]
fn the_longest_window() {
    let open = |end| {
        let window = Interval { start: 0, end };
        FreeVolume::open(window, &[rate(0, end, 1)], &[delay(0, end, 0)])
    };
    assert!(open(1 << 24).is_ok());
    assert_eq!(open((1 << 24) + 1), Err(Refusal::WINDOW));
}

#[test]
fn the_largest_total() {
    let open = |first, second| {
        let window = Interval { start: 0, end: 2 };
        let rates = [rate(0, 1, first), rate(1, 2, second)];
        FreeVolume::open(window, &rates, &[delay(0, 2, 0)])
    };
    assert!(open(1 << 37, 1 << 37).is_ok());
    assert_eq!(open(1 << 37, (1 << 37) + 1), Err(Refusal::VOLUME));
}

#[test]
fn sizes_outside_their_limits() {
    for size in [0, (1 << 38) + 1, u64::MAX] {
        assert_eq!(free().dry_run(0, bundle(size, 0)), Err(Refusal::BUNDLE));
    }
    assert_eq!(free().dry_run(0, bundle(1, 128)), Err(Refusal::BUNDLE));
    assert_eq!(
        free().dry_run((1 << 40) + 1, bundle(1, 0)),
        Err(Refusal::BUNDLE)
    );
}

#[test]
fn more_segments_than_places_are_refused() {
    let rates: Vec<_> = (0..17).map(|i| rate(i, i + 1, 1)).collect();
    let window = Interval { start: 0, end: 17 };
    let opened = FreeVolume::open(window, &rates, &[delay(0, 17, 0)]);
    assert_eq!(opened, Err(Refusal::RATES));
    let budgeted = Flags {
        budgeted: true,
        ..Flags::default()
    };
    let opened = Queue::open(WINDOW, 10, 2, 8, budgeted, &[1; 9]);
    assert_eq!(opened, Err(Refusal::CLASSES));
}

#[test]
fn the_64th_segment_is_kept_and_a_65th_refused() {
    let window = Interval {
        start: 0,
        end: 1000,
    };
    let mut manager = FreeVolume::open(window, &[rate(0, 1000, 10)], &[delay(0, 1000, 0)]).unwrap();
    for place in 1..64 {
        book!(manager, place * 10, bundle(10, 0));
    }
    assert_eq!(manager.list().len(), 64);
    let before = manager;
    let offer = manager.dry_run(900, bundle(10, 0)).unwrap();
    assert_eq!(manager.book(900, bundle(10, 0), offer), Err(Refusal::FULL));
    assert_eq!(manager, before);
}

#[test]
fn a_stale_offer_is_refused() {
    let mut manager = free();
    let offer = manager.dry_run(3, bundle(15, 0)).unwrap();
    manager.book(3, bundle(15, 0), offer).unwrap();
    let before = manager;
    let again = manager.book(3, bundle(15, 0), offer);
    assert_eq!(again, Err(Refusal::NOT_OFFERED));
    assert_eq!(manager, before);
}
