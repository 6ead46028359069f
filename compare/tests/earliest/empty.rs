//! Why document 02 leaves out records with an empty segment: the smallest
//! inputs on which the claim fails there, and a search that finds none smaller.

use std::collections::BTreeMap;

use oracle::Oracle;
use oracle::earliest::claim::{Booked, Contact, Place};
use oracle::frames::{Dates, Frame, RatedOpening, Request, Span, Window};
use oracle::stated::{Talk, request, span_of};

use super::listed;

/// A contact from 0 on with a rate for each tick, and no delay.
fn contact(rates: &[i64]) -> RatedOpening {
    let end = rates.len() as i64;
    let is_even = rates.iter().all(|rate| *rate == rates[0]);
    let each = (0..end).zip(rates);
    RatedOpening {
        window: Window { start: 0, end },
        rates: match is_even {
            true => vec![span_of((0, end, rates[0]))],
            false => each
                .map(|(tick, rate)| span_of((tick, tick + 1, *rate)))
                .collect(),
        },
        delays: vec![span_of((0, end, 0))],
    }
}

fn claim(opening: &RatedOpening, listed: &[Span], asked: Request) -> Option<Place> {
    let contact = Contact::of(opening).expect("a short window");
    Booked::on(&contact, listed).least(asked)
}

// ---------------------------------------------------------------------------
// The inputs as frames

/// What the frames leave listed, all of them answered as the talk says.
fn held(talk: Talk) -> Vec<Span> {
    let mut oracle = Oracle::new();
    for step in &talk.steps {
        assert_eq!(oracle.answer(&step.line), step.answer, "{}", talk.about);
    }
    listed(&mut oracle)
}

fn opened(about: &str, rates: &[i64]) -> Talk {
    Talk::about(about).done(Frame::OpenPriority(contact(rates)))
}

/// The empty segment that a send of zero length leaves inside a segment.
const SPLIT: [(i64, i64, i64); 3] = [(0, 1, -1), (1, 1, 0), (1, 2, -1)];
/// The same after both ticks beside it have been booked.
const BETWEEN: [(i64, i64, i64); 3] = [(0, 1, 1), (1, 1, 0), (1, 2, 1)];

/// Every instant is free, but the empty segment breaks the run: 7, although
/// start 0 has the end 2.
#[test]
fn an_empty_segment_hides_the_only_start() {
    for (rates, all) in [([2, 2], 4), ([1, 2], 3)] {
        let asked = request(0, all, 0);
        let list = held(
            opened("hidden", &rates)
                .books(request(1, 1, 0), [1, 1, 1, 1])
                .lists(&SPLIT)
                .no_offer(asked),
        );
        let place = Place { start: 0, end: 2 };
        assert_eq!(claim(&contact(&rates), &list, asked), Some(place));
    }
}

/// The first tick carries nothing, so that the part after the empty segment is
/// enough, and a later start than the least is offered.
#[test]
fn an_empty_segment_hides_an_earlier_start() {
    let rates = [0, 2];
    let asked = request(0, 2, 0);
    let list = held(
        opened("later", &rates)
            .books(request(1, 1, 0), [1, 1, 1, 1])
            .lists(&SPLIT)
            .offers(asked, [1, 2, 1, 2]),
    );
    let place = Place { start: 0, end: 2 };
    assert_eq!(claim(&contact(&rates), &list, asked), Some(place));
}

/// Both ticks are booked at the bundle's priority, but the empty segment between
/// them is not: its date is offered as a start. The second tick may be asked for
/// at its own date, or at 0 as the first.
#[test]
fn an_empty_segment_offers_what_is_no_start() {
    for (rates, first, time) in [([2, 2], 2, 1), ([2, 2], 2, 0), ([0, 2], 1, 0)] {
        let asked = request(0, 1, 1);
        let list = held(
            opened("none", &rates)
                .books(request(1, 1, 0), [1, 1, 1, 1])
                .books(request(0, first, 1), [0, 1, 0, 1])
                .books(request(time, 2, 1), [1, 2, 1, 2])
                .lists(&BETWEEN)
                .offers(asked, [1, 1, 1, 1]),
        );
        assert_eq!(claim(&contact(&rates), &list, asked), None);
    }
}

// ---------------------------------------------------------------------------
// The search

/// Ticks, the highest rate of a tick, and how many bookings are followed: every
/// contact of these shapes is searched.
const SHAPES: [(u32, i64, usize); 3] = [(1, 3, 3), (2, 3, 3), (3, 2, 2)];
const PRIORITIES: [u8; 2] = [0, 1];

/// In what way an answer is not the claim.
#[derive(Clone, Copy, Debug, PartialEq, Eq)]
enum Way {
    /// 7 although there is a start.
    Hidden,
    /// A later start than the least.
    Later,
    /// A start that is none.
    NoStart,
}

impl Way {
    fn of(answered: Option<Place>, claim: Option<Place>) -> Option<Self> {
        match (answered, claim) {
            (None, None) => None,
            (None, Some(_)) => Some(Way::Hidden),
            (Some(_), None) => Some(Way::NoStart),
            (Some(answered), Some(claim)) if answered.start > claim.start => Some(Way::Later),
            (Some(answered), Some(claim)) if answered.start < claim.start => Some(Way::NoStart),
            (answered, claim) => {
                assert_eq!(answered, claim, "an end of its own");
                None
            }
        }
    }
}

type Booking = (Request, Dates);

/// Size, time and priority of each booking, and of the dry run at last.
type Asked = Vec<(i64, i64, u8)>;

fn asked(requests: impl Iterator<Item = Request>) -> Asked {
    requests
        .map(|Request { time, load }| (load.size, time, load.priority))
        .collect()
}

fn sizes(asked: &Asked) -> i64 {
    asked.iter().map(|(size, ..)| size).sum()
}

struct Failure {
    way: Way,
    rates: Vec<i64>,
    asked: Asked,
}

impl Failure {
    /// What makes one input smaller than another, in this order: fewer
    /// bookings, fewer ticks, a lower highest rate, less carried in all, smaller
    /// sizes; then any order.
    fn measure(&self) -> impl Ord + use<> {
        let highest = self.rates.iter().max().copied();
        let total: i64 = self.rates.iter().sum();
        let asked = self.asked.clone();
        (
            asked.len(),
            self.rates.len(),
            highest,
            total,
            sizes(&asked),
            asked,
        )
    }

    fn is_even(&self) -> bool {
        self.rates.iter().all(|rate| *rate == self.rates[0])
    }
}

fn walk(opening: &RatedOpening, path: &[Booking]) -> Oracle {
    let mut oracle = Oracle::new();
    let opened = oracle.answer_frame(&Frame::OpenPriority(opening.clone()));
    opened.expect("an opening");
    for (request, dates) in path {
        let booked = oracle.answer_frame(&Frame::Book(*request, *dates));
        booked.expect("a booking of what was offered");
    }
    oracle
}

fn every_request(rates: &[i64]) -> Vec<Request> {
    let mut requests = Vec::new();
    for time in 0..rates.len() as i64 {
        for size in 1..=rates.iter().sum() {
            requests.extend(PRIORITIES.map(|priority| request(time, size, priority)));
        }
    }
    requests
}

/// What fails at the end of a path: only where an empty segment is listed.
fn failures(rates: &[i64], path: &[Booking]) -> Vec<Failure> {
    let opening = contact(rates);
    let mut oracle = walk(&opening, path);
    let list = listed(&mut oracle);
    let mut found = Vec::new();
    for request in every_request(rates) {
        let offer = oracle.dry_run(request).ok();
        let answered = offer.map(|Dates([start, end, ..])| Place { start, end });
        if let Some(way) = Way::of(answered, claim(&opening, &list, request)) {
            assert!(list.iter().any(|span| span.start == span.end));
            let requests = path.iter().map(|(request, _)| *request).chain([request]);
            found.push(Failure {
                way,
                rates: rates.to_vec(),
                asked: asked(requests),
            });
        }
    }
    found
}

/// The smallest path to each list: what is answered rests on the list alone.
type Paths = BTreeMap<String, Vec<Booking>>;

/// Every path with one booking more.
fn longer(rates: &[i64], paths: &Paths) -> Paths {
    let opening = contact(rates);
    let mut all = Paths::new();
    for path in paths.values() {
        let oracle = walk(&opening, path);
        for request in every_request(rates) {
            let Ok(dates) = oracle.dry_run(request) else {
                continue;
            };
            let path = [&path[..], &[(request, dates)]].concat();
            let list = format!("{:?}", listed(&mut walk(&opening, &path)));
            let known = all.entry(list).or_insert_with(|| path.clone());
            if by_size(&path) < by_size(known) {
                *known = path;
            }
        }
    }
    all
}

fn by_size(path: &[Booking]) -> (i64, Asked) {
    let asked = asked(path.iter().map(|(request, _)| *request));
    (sizes(&asked), asked)
}

/// Every list of rates of so many ticks.
fn rate_lists(ticks: u32, highest: i64) -> Vec<Vec<i64>> {
    let mut lists = vec![Vec::new()];
    for _ in 0..ticks {
        let longer = |list: &Vec<i64>| {
            let list = list.clone();
            (0..=highest).map(move |rate| [&list[..], &[rate]].concat())
        };
        lists = lists.iter().flat_map(longer).collect();
    }
    lists
}

fn search() -> Vec<Failure> {
    let mut found = Vec::new();
    for (ticks, highest, bookings) in SHAPES {
        for rates in rate_lists(ticks, highest) {
            let mut paths = Paths::from([(String::new(), Vec::new())]);
            for made in 0..=bookings {
                if made > 0 {
                    paths = longer(&rates, &paths);
                }
                let failing = paths.values().flat_map(|path| failures(&rates, path));
                found.extend(failing);
            }
        }
    }
    found
}

#[test]
fn no_smaller_inputs_are_found() {
    let found = search();
    let smallest = |way, even_only: bool| {
        let fits = |failure: &&Failure| failure.way == way && (failure.is_even() || !even_only);
        let least = found
            .iter()
            .filter(fits)
            .min_by_key(|failure| failure.measure());
        let least = least.expect("a failure");
        (least.rates.clone(), least.asked.clone())
    };
    for (way, even_only, rates, asked) in [
        (Way::Hidden, true, vec![2, 2], vec![(1, 1, 0), (4, 0, 0)]),
        (Way::Hidden, false, vec![1, 2], vec![(1, 1, 0), (3, 0, 0)]),
        (Way::Later, true, vec![2, 2, 2], vec![(1, 1, 0), (4, 0, 0)]),
        (Way::Later, false, vec![0, 2], vec![(1, 1, 0), (2, 0, 0)]),
        (
            Way::NoStart,
            true,
            vec![2, 2],
            vec![(1, 1, 0), (2, 0, 1), (2, 0, 1), (1, 0, 1)],
        ),
        (
            Way::NoStart,
            false,
            vec![0, 2],
            vec![(1, 1, 0), (1, 0, 1), (2, 0, 1), (1, 0, 1)],
        ),
    ] {
        assert_eq!(smallest(way, even_only), (rates, asked), "{way:?}");
    }
}
