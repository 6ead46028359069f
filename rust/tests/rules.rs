//! Document 02's R-4 through the package: the second rule of the delays, beside
//! the first, in the three managers that look delays up.

mod common;

use std::fmt::Debug;

use common::{book, book_stated, offered, refuses};
use howrekano::{
    Bundle, Choices, DelaySegment, FreeVolume, Interval, Manager, Offer, PolySeg, Polynome,
    PolynomialChoices, PrioritySeg, RateSegment, Record, Refusal, record,
};

/// Rules that there are not.
const NONE: [u64; 4] = [0, 3, 255, u64::MAX];

/// Both rules; and both editions or both modes, which go with either.
const BOTH: [u64; 2] = [1, 2];

const WINDOW: Interval = Interval { start: 0, end: 10 };

/// Every contact here carries this each tick, so that a size of some ticks is sent
/// in these, whichever its manager and its edition or mode.
const RATE: u64 = 10;

/// Case 7's delays.
const CASE_7: [DelaySegment; 2] = [delay(0, 4, 10), delay(4, 10, 2)];

const fn delay(start: u64, end: u64, delay: u64) -> DelaySegment {
    DelaySegment { start, end, delay }
}

/// The last date, and the longest delay.
const LAST: u64 = 1 << 40;

/// A delay for each tick from the start on, each less by one than the one before.
fn steps(start: u64, count: u64) -> Vec<DelaySegment> {
    let starts = start..start + count;
    starts
        .zip(0..)
        .map(|(start, less)| delay(start, start + 1, LAST - less))
        .collect()
}

/// What is sent in so many ticks.
const fn ticks(ticks: u64) -> Bundle {
    Bundle {
        size: RATE * ticks,
        priority: 0,
    }
}

/// A manager that looks delays up.
trait Ruled: Record + Debug {
    /// Opens with an edition or a mode, and with a rule.
    fn open(
        other: u64,
        rule: u64,
        window: Interval,
        delays: &[DelaySegment],
    ) -> Result<Manager<Self>, Refusal>;

    /// Opens with nothing chosen.
    fn plain(window: Interval, delays: &[DelaySegment]) -> Result<Manager<Self>, Refusal>;

    /// The edition or the mode, and the rule, that a contact was opened with.
    fn chosen(contact: &Manager<Self>) -> (u64, u64);

    /// The place of the rule in a record.
    fn rule(&mut self) -> &mut u64;
}

const fn rates(window: Interval) -> [RateSegment; 1] {
    let Interval { start, end } = window;
    [RateSegment {
        start,
        end,
        rate: RATE,
    }]
}

const FLAT: Polynome = Polynome {
    coefficients: [RATE as i64, 0, 0, 0],
    offset: 0,
};

/// A manager of a contact with rates.
macro_rules! rated {
    ($($name:ident)*) => {$(
        impl Ruled for record::$name {
            fn open(
                edition: u64,
                rule: u64,
                window: Interval,
                delays: &[DelaySegment],
            ) -> Result<$name, Refusal> {
                let choices = Choices {
                    edition,
                    rule,
                    ..Choices::default()
                };
                $name::open_with(choices, window, &rates(window), delays)
            }

            fn plain(window: Interval, delays: &[DelaySegment]) -> Result<$name, Refusal> {
                $name::open(window, &rates(window), delays)
            }

            fn chosen(contact: &$name) -> (u64, u64) {
                let Choices { edition, rule, .. } = contact.choices();
                (edition, rule)
            }

            fn rule(&mut self) -> &mut u64 {
                &mut self.contact.choices.rule
            }
        }
    )*};
}

rated!(FreeVolume PrioritySeg);

impl Ruled for record::PolySeg {
    fn open(
        mode: u64,
        rule: u64,
        window: Interval,
        delays: &[DelaySegment],
    ) -> Result<PolySeg, Refusal> {
        let choices = PolynomialChoices {
            mode,
            rule,
            ..PolynomialChoices::default()
        };
        PolySeg::open_with(choices, window, FLAT, delays)
    }

    fn plain(window: Interval, delays: &[DelaySegment]) -> Result<PolySeg, Refusal> {
        PolySeg::open(window, FLAT, delays)
    }

    fn chosen(contact: &PolySeg) -> (u64, u64) {
        let PolynomialChoices { mode, rule, .. } = contact.choices();
        (mode, rule)
    }

    fn rule(&mut self) -> &mut u64 {
        &mut self.choices.rule
    }
}

/// The same of each manager.
macro_rules! each {
    ($claim:ident) => {
        $claim::<record::FreeVolume>();
        $claim::<record::PrioritySeg>();
        $claim::<record::PolySeg>();
    };
}

fn opened<R: Ruled>(other: u64, rule: u64, delays: &[DelaySegment]) -> Manager<R> {
    R::open(other, rule, WINDOW, delays).unwrap()
}

/// When a bundle is received that is sent from this date to that.
fn received<R: Ruled>(contact: &Manager<R>, start: u64, end: u64) -> (u64, u64) {
    let Offer { send, recv } = offered(contact, start, ticks(end - start)).unwrap();
    assert_eq!(send, Interval { start, end });
    (recv.start, recv.end)
}

/// When it is under rule 1 and under rule 2, in both editions or modes.
fn receives<R: Ruled>(delays: &[DelaySegment], send: (u64, u64), expected: [(u64, u64); 2]) {
    let (start, end) = send;
    for other in BOTH {
        let both = BOTH.map(|rule| received(&opened::<R>(other, rule, delays), start, end));
        assert_eq!(both, expected, "{send:?} over {delays:?}");
    }
}

// ---------------------------------------------------------------------------
// Sends that start or end where a delay does

/// Case 7, and the sends around its boundary.
fn case_7<R: Ruled>() {
    receives::<R>(&CASE_7, (4, 5), [(14, 7), (6, 7)]);
    receives::<R>(&CASE_7, (3, 4), [(13, 14), (13, 6)]);
    receives::<R>(&CASE_7, (3, 5), [(13, 7); 2]);
    receives::<R>(&CASE_7, (2, 3), [(12, 13); 2]);
    receives::<R>(&CASE_7, (5, 6), [(7, 8); 2]);
}

#[test]
fn case_7_has_the_later_delay_under_rule_2() {
    each!(case_7);
}

fn both_ends<R: Ruled>() {
    let delays = [delay(0, 2, 100), delay(2, 5, 10), delay(5, 10, 1)];
    receives::<R>(&delays, (2, 5), [(102, 15), (12, 6)]);
    receives::<R>(&delays, (2, 4), [(102, 14), (12, 14)]);
    receives::<R>(&delays, (3, 5), [(13, 15), (13, 6)]);
    receives::<R>(&delays, (0, 10), [(100, 11); 2]);
}

#[test]
fn a_send_from_boundary_to_boundary_has_two_later_delays() {
    each!(both_ends);
}

fn window_ends<R: Ruled>() {
    receives::<R>(&CASE_7, (0, 1), [(10, 11); 2]);
    receives::<R>(&CASE_7, (9, 10), [(11, 12); 2]);
    receives::<R>(&[delay(0, 10, 3)], (0, 10), [(3, 13); 2]);
}

#[test]
fn the_windows_start_and_end_have_the_same_delay_under_both_rules() {
    each!(window_ends);
}

/// Edition 1 sends in no time what is less than a tick carries.
fn no_length<R: Ruled>() {
    let less = Bundle {
        size: RATE - 1,
        priority: 0,
    };
    for (rule, at) in [(1, 14), (2, 6)] {
        let offer = offered(&opened::<R>(1, rule, &CASE_7), 4, less).unwrap();
        assert_eq!(offer.send, Interval { start: 4, end: 4 });
        assert_eq!(offer.recv, Interval { start: at, end: at });
    }
}

#[test]
fn a_send_of_no_length_on_a_boundary_has_one_delay() {
    no_length::<record::FreeVolume>();
    no_length::<record::PrioritySeg>();
}

/// Sixteen delays of a tick each, up to the last date.
fn limits<R: Ruled>() {
    let start = LAST - 16;
    let window = Interval { start, end: LAST };
    let [first, second] = BOTH.map(|rule| R::open(1, rule, window, &steps(start, 16)).unwrap());
    let sum = start + LAST;
    for tick in start + 1..LAST - 1 {
        assert_eq!(received(&first, tick, tick + 1), (sum + 1, sum + 1));
        assert_eq!(received(&second, tick, tick + 1), (sum, sum));
    }
    for contact in [first, second] {
        assert_eq!(received(&contact, start, LAST), (sum, sum + 1));
    }
}

#[test]
fn sixteen_delays_at_the_limits() {
    each!(limits);
}

// ---------------------------------------------------------------------------
// Every send over every list of delays in a short window

const SHORT: Interval = Interval {
    start: 100,
    end: 106,
};

/// The lists that cover the short window, one for each set of inner boundaries.
fn lists() -> impl Iterator<Item = Vec<DelaySegment>> {
    let inner = SHORT.start + 1..SHORT.end;
    let sets = 1_u32 << (inner.end - inner.start);
    (0..sets).map(move |set| {
        let cut = inner
            .clone()
            .zip(0..)
            .filter(|(_, place)| set >> place & 1 == 1);
        let mut dates: Vec<u64> = cut.map(|(date, _)| date).collect();
        dates.insert(0, SHORT.start);
        dates.push(SHORT.end);
        let segments = dates.windows(2).zip(1..);
        // No two delays are the same, and they rise and fall.
        let segments =
            segments.map(|(ends, place)| delay(ends[0], ends[1], 1000 * (place * 5 % 7)));
        segments.collect()
    })
}

/// A date's delay, by 01's sentence and by 02's.
fn delay_at(delays: &[DelaySegment], rule: u64, date: u64) -> u64 {
    let found = match rule {
        1 => delays.iter().find(|segment| segment.end >= date),
        _ if date == SHORT.end => delays.last(),
        _ => delays
            .iter()
            .find(|segment| segment.start <= date && date < segment.end),
    };
    found.unwrap().delay
}

/// Sends with a length inside the short window.
fn sends() -> impl Iterator<Item = (u64, u64)> {
    (SHORT.start..SHORT.end).flat_map(|start| (start + 1..=SHORT.end).map(move |end| (start, end)))
}

fn every_send<R: Ruled>() {
    let mut differing = 0;
    for (delays, other) in lists().flat_map(|list| BOTH.map(|other| (list.clone(), other))) {
        let contacts = BOTH.map(|rule| (rule, R::open(other, rule, SHORT, &delays).unwrap()));
        for (start, end) in sends() {
            let [first, second] = contacts.map(|(rule, contact)| {
                let answered = received(&contact, start, end);
                let [from, to] = [start, end].map(|date| date + delay_at(&delays, rule, date));
                assert_eq!(
                    answered,
                    (from, to),
                    "rule {rule}: {start}, {end}, {delays:?}"
                );
                answered
            });
            let on_boundary = delays[1..]
                .iter()
                .any(|d| d.start == start || d.start == end);
            assert_eq!(first != second, on_boundary, "{start}, {end}, {delays:?}");
            differing += u32::from(on_boundary);
        }
    }
    assert!(differing > 500, "{differing} sends say little");
}

#[test]
fn the_rules_differ_exactly_at_inner_boundaries() {
    each!(every_send);
}

// ---------------------------------------------------------------------------
// What is booked, and what is listed

/// What the record lists.
fn listed<R: Ruled>(contact: &Manager<R>) -> R::List {
    contact.record().listed().unwrap()
}

fn lists_alike<R: Ruled>()
where
    R::List: PartialEq + Debug,
{
    for other in BOTH {
        let [mut first, mut second] = BOTH.map(|rule| opened::<R>(other, rule, &steps(0, 10)));
        for (at, length) in [(3, 2), (0, 1), (7, 1), (4, 9), (5, 2), (0, 2)] {
            let offers = [&mut first, &mut second].map(|contact| book(contact, at, ticks(length)));
            let [sent, beside] = offers.map(|offer| offer.map(|offer| offer.send));
            assert_eq!(sent, beside, "{length} at {at}");
            assert_eq!(listed(&first), listed(&second));
            assert_eq!(R::chosen(&first), (other, 1));
            assert_eq!(R::chosen(&second), (other, 2));
        }
    }
}

#[test]
fn sends_and_lists_do_not_depend_on_the_rule_and_bookings_keep_it() {
    each!(lists_alike);
}

/// A booking is made with the dates of the contact's own rule.
fn own_dates<R: Ruled>() {
    let contacts = BOTH.map(|rule| opened::<R>(1, rule, &CASE_7));
    let offers = contacts.map(|contact| offered(&contact, 4, ticks(1)).unwrap());
    for (mut contact, other) in contacts.into_iter().zip([offers[1], offers[0]]) {
        let before = contact;
        let booked = book_stated(&mut contact, 4, ticks(1), other);
        assert_eq!(booked, Err(Refusal::NOT_OFFERED));
        assert_eq!(contact, before);
        book(&mut contact, 4, ticks(1)).unwrap();
    }
}

#[test]
fn the_other_rules_dates_are_not_booked() {
    each!(own_dates);
}

/// A record is what an opening with its choices makes.
fn rewritten<R: Ruled>() {
    let [first, second] = BOTH.map(|rule| opened::<R>(2, rule, &CASE_7));
    let mut record = *first.record();
    assert_ne!(first, second);
    *record.rule() = 2;
    assert_eq!(Manager::from_record(record), Ok(second));
}

#[test]
fn two_contacts_that_differ_in_the_rule_differ_in_nothing_else() {
    each!(rewritten);
}

// ---------------------------------------------------------------------------
// What is opened, and what is refused

fn the_originals<R: Ruled>() {
    let plain = R::plain(WINDOW, &CASE_7);
    assert_eq!(plain, R::open(1, 1, WINDOW, &CASE_7));
    assert_eq!(plain.map(|contact| R::chosen(&contact)), Ok((1, 1)));
}

#[test]
fn open_has_the_originals_rule() {
    assert_eq!(Choices::default().rule, 1);
    assert_eq!(PolynomialChoices::default().rule, 1);
    each!(the_originals);
}

fn before_all_else<R: Ruled>() {
    let backward = Interval { start: 10, end: 0 };
    let long = [delay(0, 10, LAST + 1)];
    for (window, delays, refused) in [
        (WINDOW, &CASE_7[..], None),
        (backward, &CASE_7, Some(Refusal::WINDOW)),
        (WINDOW, &long, Some(Refusal::DELAYS)),
    ] {
        let open = |other, rule| R::open(other, rule, window, delays).err();
        for (other, rule) in [(1, 1), (1, 2), (2, 1), (2, 2)] {
            assert_eq!(open(other, rule), refused, "{other}, {rule}");
        }
        for none in NONE {
            for other in BOTH {
                assert_eq!(open(other, none), Some(Refusal::CHOICE), "{none}");
                assert_eq!(open(none, other), Some(Refusal::CHOICE), "{none}");
            }
            assert_eq!(open(none, none), Some(Refusal::CHOICE), "{none}");
        }
    }
}

#[test]
fn a_rule_that_there_is_not_is_refused_before_all_else() {
    each!(before_all_else);
    assert!(Refusal::CHOICE.to_string().contains("rule 1 or 2"));
}

fn damaged<R: Ruled>() {
    for other in BOTH {
        let mut record = *opened::<R>(other, 2, &CASE_7).record();
        for none in NONE {
            *record.rule() = none;
            refuses(record);
        }
    }
}

#[test]
fn a_record_of_a_rule_that_there_is_not_is_damaged() {
    each!(damaged);
    let mut record = *opened::<record::FreeVolume>(1, 2, &CASE_7).record();
    record.contact.choices.rule = 0;
    assert_eq!(record.room_left(), Err(Refusal::RECORD));
}

// ---------------------------------------------------------------------------
// Delays that do not cover the window

/// Each with what is wrong with it.
fn uncovering() -> [(&'static str, Vec<DelaySegment>); 9] {
    [
        ("none", vec![]),
        ("a gap", vec![delay(0, 4, 1), delay(5, 10, 2)]),
        ("an overlap", vec![delay(0, 5, 1), delay(4, 10, 2)]),
        ("late", vec![delay(1, 10, 1)]),
        ("early", vec![delay(0, 9, 1)]),
        ("beyond", vec![delay(0, 11, 1)]),
        (
            "empty",
            vec![delay(0, 4, 1), delay(4, 4, 2), delay(4, 10, 3)],
        ),
        (
            "backward",
            vec![delay(0, 6, 1), delay(6, 4, 2), delay(4, 10, 3)],
        ),
        ("out of order", vec![delay(4, 10, 1), delay(0, 4, 2)]),
    ]
}

#[test]
fn a_polynomials_delays_cover_its_window_under_rule_2_alone() {
    for (what, delays) in uncovering() {
        for mode in BOTH {
            let open = |rule| record::PolySeg::open(mode, rule, WINDOW, &delays);
            assert_eq!(open(2), Err(Refusal::DELAYS), "{what}");
            let mut record = *open(1).unwrap().record();
            assert!(record.is_kept(), "{what}");
            record.choices.rule = 2;
            refuses(record);
        }
    }
}

fn covers<R: Ruled>() {
    for (what, delays) in uncovering() {
        for rule in BOTH {
            let refused = R::open(1, rule, WINDOW, &delays).err();
            assert_eq!(refused, Some(Refusal::DELAYS), "{what}");
        }
    }
}

#[test]
fn the_other_managers_delays_do_under_both_rules() {
    covers::<record::FreeVolume>();
    covers::<record::PrioritySeg>();
}

/// A seventeenth segment is refused under both rules.
fn sixteen<R: Ruled>() {
    for rule in BOTH {
        let open = |end| R::open(1, rule, Interval { start: 0, end }, &steps(0, end)).err();
        assert_eq!(open(16), None);
        assert_eq!(open(17), Some(Refusal::DELAYS));
    }
}

#[test]
fn sixteen_delays_are_the_most() {
    each!(sixteen);
}

/// 3, then 5, then 11.
#[test]
fn the_cover_is_asked_after_the_window_and_before_the_polynomial() {
    let steep = Polynome {
        coefficients: [0, i64::MAX, 0, 0],
        offset: 0,
    };
    let gap = [delay(0, 4, 1), delay(5, 10, 2)];
    let open = |window, rule| {
        let choices = PolynomialChoices {
            rule,
            ..PolynomialChoices::default()
        };
        PolySeg::open_with(choices, window, steep, &gap).err()
    };
    let backward = Interval { start: 10, end: 0 };
    assert_eq!(open(backward, 2), Some(Refusal::WINDOW));
    assert_eq!(open(WINDOW, 2), Some(Refusal::DELAYS));
    assert_eq!(open(WINDOW, 1), Some(Refusal::POLYNOMIAL));
}

/// As in the original: a date in a gap has the next segment's delay, the end's
/// lookup goes on from the start's, and a date after the last end has none.
#[test]
fn a_polynomials_delays_under_rule_1_are_looked_up_as_before() {
    let open = |delays: &[DelaySegment]| opened::<record::PolySeg>(1, 1, delays);
    let gap = open(&[delay(0, 2, 100), delay(5, 7, 10)]);
    assert_eq!(received(&gap, 3, 5), (13, 15));
    assert_eq!(received(&gap, 2, 7), (102, 17));
    assert_eq!(offered(&gap, 6, ticks(2)), Err(Refusal::NO_DELAY));
    assert_eq!(offered(&open(&[]), 0, ticks(1)), Err(Refusal::NO_DELAY));
    let turned = open(&[delay(4, 10, 1), delay(0, 4, 20)]);
    assert_eq!(received(&turned, 0, 3), (1, 4));
}
