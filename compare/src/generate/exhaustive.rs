//! Tiny contacts, with every asked time and size, fresh and after each booking
//! that they offer.

use super::dialogues::Manager;
use super::sink::Sink;
use crate::frames::{
    BUDGETS, Content, Dates, Frame, Load, PolyOpening, QueueOpening, RatedOpening, Request, Span,
    Window, flag,
};
use crate::rules::{EARLIER, LATER};

/// One contact and what is asked of it.
pub struct Tiny {
    open: Frame,
    asked: Vec<Request>,
    /// How many bookings, one after the other, are followed.
    depth: usize,
    /// For queues: what is enqueued and dequeued by hand.
    loads: Vec<Load>,
    /// For bookings by priority: a send of zero length is not booked, so that
    /// no list gets an empty segment.
    filled: bool,
}

pub fn contacts(manager: Manager) -> Vec<Tiny> {
    match manager {
        Manager::Free => rated(Frame::OpenFree, &[0], &FREE_SHAPES),
        Manager::Priority => rated(Frame::OpenPriority, &[0, 1], &PRIORITY_SHAPES),
        Manager::Poly => polys(),
        Manager::Queue => queues(),
    }
}

/// Contacts of the priority manager on which no send of zero length is booked.
pub fn filled() -> Vec<Tiny> {
    let contacts = rated(Frame::OpenPriority, &[0, 1, 2], &FILLED_SHAPES);
    let filled = |contact| Tiny {
        filled: true,
        ..contact
    };
    contacts.into_iter().map(filled).collect()
}

// ---------------------------------------------------------------------------
// Following every booking

impl Tiny {
    pub fn ask_all(&self, sink: &mut Sink) {
        self.follow(sink, &mut Vec::new(), self.depth);
        self.queue_by_hand(sink);
    }

    /// Reopens, books the path, lists, and asks everything; then goes on with
    /// each offer that leads to another record.
    fn follow(&self, sink: &mut Sink, path: &mut Vec<(Request, Dates)>, depth: usize) {
        self.walk(sink, path);
        let mut offers: Vec<(Request, Dates)> = Vec::new();
        for request in &self.asked {
            if let Ok(Content::Offer(dates)) = sink.ask(&Frame::DryRun(*request)) {
                let offer = (*request, dates);
                if !offers.iter().any(|known| self.leads_alike(known, &offer)) {
                    offers.push(offer);
                }
            }
        }
        if depth == 0 {
            return;
        }
        for offer in offers {
            if self.filled && has_no_length(&offer) {
                continue;
            }
            path.push(offer);
            self.follow(sink, path, depth - 1);
            path.pop();
        }
    }

    /// Offers of the same dates and load lead to the same record. Bookings by
    /// priority do not go by the size.
    fn leads_alike(&self, one: &(Request, Dates), other: &(Request, Dates)) -> bool {
        let (one_load, other_load) = (one.0.load, other.0.load);
        one.1 == other.1
            && one_load.priority == other_load.priority
            && (self.filled || one_load.size == other_load.size)
    }

    /// Asks frame 15 after the opening and after each booking: they alone
    /// change the figure.
    fn walk(&self, sink: &mut Sink, path: &[(Request, Dates)]) {
        let _ = sink.ask(&self.open);
        let _ = sink.ask(&Frame::Room);
        for (request, dates) in path {
            let _ = sink.ask(&Frame::Book(*request, *dates));
            let _ = sink.ask(&Frame::Room);
        }
        let _ = sink.ask(&Frame::List);
    }

    fn queue_by_hand(&self, sink: &mut Sink) {
        for first in &self.loads {
            self.walk(sink, &[]);
            let _ = sink.ask(&Frame::Enqueue(*first));
            let _ = sink.ask(&Frame::List);
            for request in &self.asked {
                let _ = sink.ask(&Frame::DryRun(*request));
            }
            for second in &self.loads {
                let _ = sink.ask(&Frame::Dequeue(*second));
                let _ = sink.ask(&Frame::List);
                let _ = sink.ask(&Frame::Enqueue(*first));
            }
        }
    }
}

fn has_no_length((_, Dates([start, end, ..])): &(Request, Dates)) -> bool {
    start == end
}

/// Every time from one before the window to two after it, with every size up
/// to `most` and every priority given.
pub fn requests(window: Window, most: i64, priorities: &[u8]) -> Vec<Request> {
    let mut requests = Vec::new();
    for time in window.start - 1..=window.end + 2 {
        for size in 1..=most {
            for priority in priorities {
                let load = Load {
                    size,
                    priority: *priority,
                };
                requests.push(Request { time, load });
            }
        }
    }
    requests
}

// ---------------------------------------------------------------------------
// Rate lists

const START: i64 = 1;

fn window(length: i64) -> Window {
    Window {
        start: START,
        end: START + length,
    }
}

/// Every way to cut `length` ticks into segments with one of these rates.
fn rate_lists(length: i64, rates: &[i64]) -> Vec<Vec<Span>> {
    fn extend(from: i64, end: i64, rates: &[i64], list: &mut Vec<Span>, all: &mut Vec<Vec<Span>>) {
        if from == end {
            return all.push(list.clone());
        }
        for to in from + 1..=end {
            for value in rates {
                list.push(Span {
                    start: from,
                    end: to,
                    value: *value,
                });
                extend(to, end, rates, list, all);
                list.pop();
            }
        }
    }
    let mut all = Vec::new();
    let window = window(length);
    extend(window.start, window.end, rates, &mut Vec::new(), &mut all);
    all
}

/// One delay, or one that falls or rises after the first tick.
fn delay_lists(window: Window) -> Vec<Vec<Span>> {
    let span = |start, end, value| Span { start, end, value };
    let mut lists = vec![vec![span(window.start, window.end, 3)]];
    let cut = window.start + 1;
    if cut < window.end {
        for (first, second) in [(9, 2), (0, 5)] {
            lists.push(vec![
                span(window.start, cut, first),
                span(cut, window.end, second),
            ]);
        }
    }
    lists
}

/// A length, the rates of its segments, and how many bookings are followed.
type Shape = (i64, &'static [i64], usize);

const FREE_SHAPES: [Shape; 5] = [
    (1, &[0, 1, 3], 3),
    (2, &[0, 1, 3], 3),
    (3, &[0, 2], 3),
    (3, &[0, 1, 3], 2),
    (4, &[0, 1, 3], 1),
];
/// Two priorities double what is asked.
const PRIORITY_SHAPES: [Shape; 4] = [
    (1, &[0, 1, 3], 3),
    (2, &[0, 1, 3], 2),
    (3, &[0, 1, 3], 1),
    (4, &[0, 2], 1),
];
/// Three priorities, but no booking of zero length to follow.
const FILLED_SHAPES: [Shape; 5] = [
    (1, &[0, 1, 2, 3], 3),
    (2, &[0, 1, 2, 3], 1),
    (2, &[0, 1, 3], 2),
    (3, &[0, 1, 3], 1),
    (4, &[0, 1], 1),
];

fn rated(open: fn(RatedOpening) -> Frame, priorities: &[u8], shapes: &[Shape]) -> Vec<Tiny> {
    let mut contacts = Vec::new();
    for &(length, rates, depth) in shapes {
        let window = window(length);
        let delay_lists = delay_lists(window);
        for (place, rates) in rate_lists(length, rates).into_iter().enumerate() {
            let total: i64 = rates
                .iter()
                .map(|span| span.value * (span.end - span.start))
                .sum();
            contacts.push(Tiny {
                open: open(RatedOpening {
                    window,
                    rates,
                    delays: delay_lists[place % delay_lists.len()].clone(),
                }),
                asked: requests(window, total + 1, priorities),
                depth,
                loads: Vec::new(),
                filled: false,
            });
        }
    }
    contacts
}

// ---------------------------------------------------------------------------
// Polynomials

fn polys() -> Vec<Tiny> {
    let mut contacts = Vec::new();
    for length in 1..=3 {
        for offset in [0, 1, 2, 4] {
            for coefficients in coefficient_lists() {
                let window = window(length);
                contacts.push(Tiny {
                    open: Frame::OpenPoly(PolyOpening {
                        window,
                        offset,
                        coefficients,
                        delays: loose_delays(contacts.len()),
                    }),
                    asked: requests(window, 6, &[0]),
                    depth: 1,
                    loads: Vec::new(),
                    filled: false,
                });
            }
        }
    }
    contacts
}

fn coefficient_lists() -> Vec<[i64; 4]> {
    let mut lists = Vec::new();
    for constant in [-1, 0, 2] {
        for linear in [-3, -1, 0, 2, 3] {
            for square in [0, 3, -4] {
                for cubic in [0, 4] {
                    lists.push([constant, linear, square, cubic]);
                }
            }
        }
    }
    lists
}

/// None, too short, covering, and out of order with overlaps, in turn.
fn loose_delays(turn: usize) -> Vec<Span> {
    let span = |start, end, value| Span { start, end, value };
    match turn % 5 {
        0 => vec![],
        1 => vec![span(0, 2, 5)],
        2 => vec![span(2, 4, 1), span(0, 1, 7)],
        3 => vec![span(0, 1, 7), span(3, 2, 4), span(1, 9, 2)],
        _ => vec![span(0, 9, 3)],
    }
}

// ---------------------------------------------------------------------------
// Both delay rules

/// Each segment has its own delay, by its place.
const DELAYS: [i64; 4] = [9, 2, 30, 0];

/// Contacts of a manager that looks up delays, with every way to cut the window
/// into delay segments, under both rules.
pub fn ruled(manager: Manager) -> Vec<Tiny> {
    let mut contacts = Vec::new();
    for length in 1..=DELAYS.len() as i64 {
        for mut delays in rate_lists(length, &[0]) {
            for (delay, own) in delays.iter_mut().zip(DELAYS) {
                delay.value = own;
            }
            for rate in [1, 2] {
                for rule in [LATER, EARLIER] {
                    let open = even(manager, window(length), rate, delays.clone());
                    contacts.push(ruled_tiny(open.ruled(rule as u8), length, rate));
                }
            }
        }
    }
    contacts
}

/// One rate over the window.
fn even(manager: Manager, window: Window, rate: i64, delays: Vec<Span>) -> Frame {
    let Window { start, end } = window;
    let rated = |delays| RatedOpening {
        window,
        rates: vec![Span {
            start,
            end,
            value: rate,
        }],
        delays,
    };
    match manager {
        Manager::Poly => Frame::OpenPoly(PolyOpening {
            window,
            offset: start,
            coefficients: [rate, 0, 0, 0],
            delays,
        }),
        Manager::Priority => Frame::OpenPriority(rated(delays)),
        _ => Frame::OpenFree(rated(delays)),
    }
}

fn ruled_tiny(open: Frame, length: i64, rate: i64) -> Tiny {
    Tiny {
        open,
        asked: requests(window(length), length * rate + 1, &[0]),
        depth: if length < 3 { 2 } else { 1 },
        loads: Vec::new(),
        filled: false,
    }
}

// ---------------------------------------------------------------------------
// Queues

fn queues() -> Vec<Tiny> {
    let mut contacts = Vec::new();
    for flags in 0..=flag::ALL {
        for classes in [1, 2, 3, 8] {
            for rate in [1, 3] {
                contacts.push(tiny_queue(flags, classes, rate));
            }
        }
    }
    contacts
}

fn tiny_queue(flags: u8, classes: u8, rate: i64) -> Tiny {
    let window = window(2);
    let mut budgets = [0; BUDGETS];
    if flags & flag::BUDGETED != 0 {
        for (class, budget) in budgets[..classes as usize].iter_mut().enumerate() {
            *budget = [4, 2, 0, 5, 7, 1, 3, 6][class];
        }
    }
    let priorities = [0, 1, 2, 7];
    let loads = [1, 4].map(|size| priorities.map(|priority| Load { size, priority }));
    Tiny {
        open: Frame::OpenQueue(QueueOpening {
            flags,
            classes,
            window,
            rate,
            delay: 2,
            budgets,
        }),
        asked: requests(window, 2 * rate + 1, &priorities),
        depth: 1,
        loads: loads.concat(),
        filled: false,
    }
}
