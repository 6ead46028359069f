//! What the original does with the inputs behind the list of findings.
//!
//!     cargo run --release --example findings
//!     ASABR_WRAP=1 cargo run --release --example findings
//!
//! The second build has no overflow checks. Nothing here goes through the
//! oracle's refusals: these are the original's own calls. Only the search for
//! the smallest rising room asks the oracle, by its frames.

extern crate asabr;

use std::fmt::Debug;
use std::panic::{self, AssertUnwindSafe};

use asabr::bundle::Bundle;
use asabr::contact::{Contact, ContactInfo};
use asabr::contact_manager::legacy::LegacyManager;
use asabr::contact_manager::legacy::eto::{AnyQueueManager, Queues};
use asabr::contact_manager::segmentation::poly_seg::{self, PolySegManager};
use asabr::contact_manager::segmentation::pseg::{self, PSegmentationManager};
use asabr::contact_manager::segmentation::seg::{self, SegmentationManager};
use asabr::contact_manager::segmentation::{Segment, lex};
use asabr::contact_manager::{ContactManager, ContactManagerTxData};
use asabr::poly::Polynome;
use asabr::types::{NodeID, TimeInterval};
use oracle::frames::{Content, Dates, Frame, Load, Request, Window};
use oracle::generate::rng::Rng;
use oracle::stated::plain;
use oracle::{Oracle, calls};

fn main() {
    panic::set_hook(Box::new(|_| {}));
    println!("overflow checks: {}", overflow_checks());
    delay_lookup();
    missing_delay();
    odd_segments();
    end_before_all_is_sent();
    never_offered();
    without_length();
    rising_volume();
    smallest_rising_room();
    divisions();
    polynomials();
    priorities();
    queues();
    any_booking();
}

/// The build's own answer, from a sum that passes its type in the original.
fn overflow_checks() -> &'static str {
    match said(|| poly([10, 0, 0, 0], &[]).dry_run_tx(1, &bundle(10, 0))).starts_with("panic") {
        true => "on",
        false => "off",
    }
}

// ---------------------------------------------------------------------------
// Short forms

fn segments(spans: &[(i128, i128, i128)]) -> Vec<Segment<i128>> {
    spans
        .iter()
        .map(|(start, end, val)| Segment {
            start: *start,
            end: *end,
            val: *val,
        })
        .collect()
}

fn bundle(size: i128, priority: i8) -> Bundle {
    Bundle {
        priority,
        size,
        expiration: 0,
    }
}

fn open<M: ContactManager>(start: i128, end: i128, manager: M) -> Option<Contact<M>> {
    let info = ContactInfo::new(NodeID::from(0), NodeID::from(1), start, end);
    Contact::try_new(info, manager).map(|(contact, ..)| contact)
}

type Spans<'a> = &'a [(i128, i128, i128)];

fn free_with(end: i128, rates: Spans, delays: Spans) -> Option<Contact<SegmentationManager>> {
    open(
        0,
        end,
        SegmentationManager::new(segments(rates), segments(delays)),
    )
}

/// Contact A: [0,10), rate 10, delay 3.
fn free() -> Contact<SegmentationManager> {
    free_with(10, &[(0, 10, 10)], &[(0, 10, 3)]).expect("contact A opens")
}

fn priority() -> Contact<PSegmentationManager> {
    let manager = PSegmentationManager::new(segments(&[(0, 10, 10)]), segments(&[(0, 10, 3)]));
    open(0, 10, manager).expect("contact A opens")
}

fn poly(coefficients: [i64; 4], delays: Spans) -> Contact<PolySegManager<4>> {
    let manager = PolySegManager::new(Polynome::new(coefficients, 0), segments(delays));
    open(0, 10, manager).expect("a polynomial always opens")
}

fn data(send_start: i128, send_end: i128) -> ContactManagerTxData {
    ContactManagerTxData {
        send: TimeInterval {
            start: send_start,
            end: send_end,
        },
        recv: TimeInterval {
            start: send_start + 3,
            end: send_end + 3,
        },
    }
}

fn shown<T: Debug>(spans: &[Segment<T>]) -> String {
    let spans: Vec<String> = spans
        .iter()
        .map(|span| format!("[{},{}) {:?}", span.start, span.end, span.val))
        .collect();
    spans.join(", ")
}

fn offer(data: Option<ContactManagerTxData>) -> String {
    match data {
        Some(data) => format!("send {} receive {}", data.send, data.recv),
        None => "None".into(),
    }
}

fn offered<M: ContactManager>(contact: &Contact<M>, time: i128, size: i128, prio: i8) -> String {
    said(|| offer(contact.dry_run_tx(time, &bundle(size, prio)))).replace('"', "")
}

/// Books what is offered.
fn book<M: ContactManager>(contact: &mut Contact<M>, time: i128, size: i128, priority: i8) {
    let bundle = bundle(size, priority);
    let data = contact.dry_run_tx(time, &bundle).expect("an offer");
    contact.schedule_tx(data, &bundle).expect("a booking");
}

/// What a call answers, or its panic.
fn said<T: Debug>(call: impl FnOnce() -> T) -> String {
    match panic::catch_unwind(AssertUnwindSafe(call)) {
        Ok(value) => format!("{value:?}"),
        Err(panic) => match panic.downcast_ref::<&str>() {
            Some(text) => format!("panic: {text}"),
            None => match panic.downcast_ref::<String>() {
                Some(text) => format!("panic: {text}"),
                None => "panic".into(),
            },
        },
    }
}

fn title(text: &str) {
    println!("\n{text}");
}

// ---------------------------------------------------------------------------
// The rules of segmentation/mod.rs

fn delay_lookup() {
    title("delay lookup at a boundary");
    let delays = segments(&[(0, 4, 10), (4, 10, 2)]);
    println!("get_delays(4,5) = {:?}", lex::get_delays(4, 5, &delays));
    let contact = free_with(10, &[(0, 10, 10)], &[(0, 4, 10), (4, 10, 2)]).expect("opens");
    println!("at 4, size 10: {}", offered(&contact, 4, 10, 0));
    let loose = segments(&[(0, 9, 1), (0, 2, 2)]);
    println!(
        "out of order [0,9) 1, [0,2) 2: get_delays(0,1) = {:?}",
        lex::get_delays(0, 1, &loose)
    );
}

fn missing_delay() {
    title("no delay segment (polynomial, coefficients 10,0,0,0, window [0,10))");
    for (time, delays) in [
        (0, &[][..]),
        (1, &[][..]),
        (0, &[(0, 0, 5)][..]),
        (3, &[(0, 3, 5)][..]),
    ] {
        let contact = poly([10, 0, 0, 0], delays);
        println!(
            "delays {delays:?}, at {time}, size 10: {}",
            offered(&contact, time, 10, 0)
        );
    }
}

fn odd_segments() {
    title("try_init and odd segments, window [0,10)");
    let whole = [(0, 10, 10)];
    for odd in [
        &[(0, 0, 10), (0, 10, 10)][..],
        &[(0, 4, 10), (4, 4, 10), (4, 10, 10)][..],
        &[(0, 20, 10), (20, 10, 10)][..],
        &[(0, 4, 10), (4, 2, 10), (2, 10, 10)][..],
        &[(0, 5, 10), (4, 10, 10)][..],
        &[(0, 4, 10), (5, 10, 10)][..],
        &[][..],
    ] {
        let as_rates = free_with(10, odd, &whole);
        let as_delays = free_with(10, &whole, odd);
        println!(
            "{odd:?}: as rates {}, as delays {}",
            if as_rates.is_some() {
                "opens"
            } else {
                "refused"
            },
            if as_delays.is_some() {
                "opens"
            } else {
                "refused"
            }
        );
        if let Some(contact) = as_rates {
            println!(
                "  as rates it lists {}; at 0, size 100: {}; at 3, size 10: {}",
                shown(seg::peek::listed(&contact.manager)),
                offered(&contact, 0, 100, 0),
                offered(&contact, 3, 10, 0)
            );
        }
    }
}

fn end_before_all_is_sent() {
    title("get_tx_end, [0,10) rate 10");
    let volumes = segments(&[(0, 10, 100)]);
    for (at, size, by) in [(0, 1, 10), (0, 1, 0), (0, 19, 1), (0, 20, 1), (9, 19, 10)] {
        println!(
            "at {at}, size {size}, deadline {by}: {:?}; carried by then: {}",
            lex::get_tx_end(&volumes, at, size, by),
            lex::get_volume(at, by, &volumes)
        );
    }
    println!("dry run at 0, size 1: {}", offered(&free(), 0, 1, 0));
    println!("dry run at 0, size 19: {}", offered(&free(), 0, 19, 0));
    println!("dry run at 9, size 19: {}", offered(&free(), 9, 19, 0));
}

// ---------------------------------------------------------------------------
// Bookings that were never offered

fn never_offered() {
    title("schedule_tx of what was never offered");
    let mut contact = free();
    book(&mut contact, 0, 10, 0);
    try_free("free [1,10), send 0,1", contact, 0, 1, 10);
    let mut contact = free();
    book(&mut contact, 3, 10, 0);
    try_free("free [0,3), [4,10), send 3,4", contact, 3, 4, 10);
    try_free("free [0,10), send 2,50", free(), 2, 50, 10);
    try_free("free [0,10), send 20,30", free(), 20, 30, 10);
    try_free("free [0,10), send 5,2", free(), 5, 2, 10);
    try_free("free [0,10), send 0,1, size 200", free(), 0, 1, 200);

    let mut contact = poly([10, 0, 0, 0], &[(0, 10, 3)]);
    book(&mut contact, 0, 10, 0);
    let result = said(|| contact.schedule_tx(data(0, 1), &bundle(10, 0)));
    println!(
        "polynomial, free [1,10), send 0,1: {result}; lists {}",
        shown(poly_seg::peek::listed(&contact.manager))
    );

    let mut contact = priority();
    book(&mut contact, 2, 30, 5);
    let result = said(|| contact.schedule_tx(data(3, 4), &bundle(10, 0)));
    println!(
        "priority, [2,5) booked at 5, send 3,4 at 0: {result}; lists {}",
        shown(pseg::peek::listed(&contact.manager))
    );
    let result = said(|| contact.schedule_tx(data(7, 90), &bundle(10, 0)));
    println!(
        "priority, send 7,90: {result}; lists {}",
        shown(pseg::peek::listed(&contact.manager))
    );

    let mut contact = queue(LegacyManager::<false, true, 2, 0>::new(10, 3));
    let result = said(|| contact.schedule_tx(data(50, 60), &bundle(1000, 1)));
    println!(
        "queue, send 50,60, size 1000: {result}; queues {:?}",
        contact.manager.0.queues()
    );
}

fn try_free(
    about: &str,
    mut contact: Contact<SegmentationManager>,
    start: i128,
    end: i128,
    size: i128,
) {
    let result = said(|| contact.schedule_tx(data(start, end), &bundle(size, 0)));
    println!(
        "{about}: {result}; lists {}",
        shown(seg::peek::listed(&contact.manager))
    );
}

// ---------------------------------------------------------------------------
// Sends without length, and volumes

fn without_length() {
    title("sends without length, contact A");
    let mut contact = free();
    println!("at 5, size 9: {}", offered(&contact, 5, 9, 0));
    for times in [1, 2, 1000] {
        while_booking(&mut contact, times);
        println!(
            "booked {times} more: lists {}",
            shown(seg::peek::listed(&contact.manager))
        );
    }
    let mut contact = free();
    book(&mut contact, 5, 10, 0);
    println!(
        "[5,6) booked: lists {}",
        shown(seg::peek::listed(&contact.manager))
    );
    println!("at 5, size 9: {}", offered(&contact, 5, 9, 0));
    book(&mut contact, 5, 9, 0);
    println!(
        "booked: lists {}",
        shown(seg::peek::listed(&contact.manager))
    );
    println!("at 10, size 9: {}", offered(&free(), 10, 9, 0));
}

fn while_booking(contact: &mut Contact<SegmentationManager>, times: usize) {
    for _ in 0..times {
        book(contact, 5, 9, 0);
    }
}

fn rising_volume() {
    title("the listed volume after a booking, contact A");
    let mut contact = free();
    for _ in 0..10 {
        book(&mut contact, 0, 9, 0);
    }
    println!(
        "ten times size 9 at 0: lists {}",
        shown(seg::peek::listed(&contact.manager))
    );
    book(&mut contact, 5, 10, 0);
    println!(
        "then size 10 at 5: lists {}",
        shown(seg::peek::listed(&contact.manager))
    );
    let mut contact = free();
    book(&mut contact, 0, 15, 0);
    book(&mut contact, 5, 10, 0);
    println!(
        "size 15 at 0, then size 10 at 5: lists {}",
        shown(seg::peek::listed(&contact.manager))
    );
}

fn divisions() {
    title("divisions by zero");
    let contact = free_with(10, &[(0, 10, 0)], &[(0, 10, 3)]).expect("opens");
    println!("free, rate 0, size 0 at 0: {}", offered(&contact, 0, 0, 0));
    println!("free, rate 0, size 1 at 0: {}", offered(&contact, 0, 1, 0));
    println!("free, rate 10, size 0 at 5: {}", offered(&free(), 5, 0, 0));
    println!(
        "free, rate 10, size -1 at 5: {}",
        offered(&free(), 5, -1, 0)
    );
    let contact = queue(LegacyManager::<false, true, 1, 0>::new(0, 3));
    println!("queue, rate 0, size 1: {}", offered(&contact, 0, 1, 0));
    println!("queue, rate 0, size 0: {}", offered(&contact, 0, 0, 0));
}

// ---------------------------------------------------------------------------
// The room (document 02, R-1): the sum of the listed volumes

/// The most that is tried of each. Longer windows and higher rates would not
/// show fewer bookings: a cut gives back what earlier bookings took beyond the
/// capacity of their sends. Before the first booking that is nothing. Before the
/// second it is less than one tick carries, and only if the list is one segment
/// up to the window's end, of which any cut takes a tick or more.
const MOST_BOOKINGS: usize = 3;
const LONGEST: i64 = 5;
const HIGHEST: i64 = 5;

type Booking = (Request, Dates);

/// Fewest bookings, then the shortest window, then the lowest rate, then the
/// smallest sizes, then the earliest asked times. Every asked time up to the
/// window's end and every size up to the total is tried: no others are offered.
fn smallest_rising_room() {
    title("the smallest input by which the room rises (one rate, delay 0, window from 0)");
    for bookings in 1..=MOST_BOOKINGS {
        let lengths = 1..=LONGEST;
        let openings = lengths.flat_map(|end| (0..=HIGHEST).map(move |rate| (end, rate)));
        for (end, rate) in openings {
            let open = Frame::OpenFree(plain(Window { start: 0, end }, rate, 0));
            let paths = rising_paths(&open, &every_request(end, rate), bookings);
            if let Some(smallest) = paths.iter().min_by_key(|path| sizes_and_times(path)) {
                println!("by {bookings} bookings: window [0,{end}), rate {rate}");
                return show_rooms(&open, smallest);
            }
        }
        println!("by {bookings}: none, windows to [0,{LONGEST}) and rates to {HIGHEST} tried");
    }
}

fn every_request(end: i64, rate: i64) -> Vec<Request> {
    let request = |time, size| Request {
        time,
        load: Load { size, priority: 0 },
    };
    (0..=end)
        .flat_map(|time| (1..=rate * end).map(move |size| request(time, size)))
        .collect()
}

fn sizes_and_times(path: &[Booking]) -> (Vec<i64>, Vec<i64>) {
    let requests = path.iter().map(|(request, _)| request);
    requests
        .map(|request| (request.load.size, request.time))
        .unzip()
}

/// Every path of so many bookings whose last one makes the room rise.
fn rising_paths(open: &Frame, asked: &[Request], bookings: usize) -> Vec<Vec<Booking>> {
    let mut paths = vec![Vec::new()];
    for _ in 0..bookings {
        paths = paths
            .iter()
            .flat_map(|path| each_further(open, asked, path))
            .collect();
    }
    paths.retain(|path| {
        let before = &path[..path.len() - 1];
        room(&mut walk(open, path)) > room(&mut walk(open, before))
    });
    paths
}

/// The path with each booking that is offered after it.
fn each_further(open: &Frame, asked: &[Request], path: &[Booking]) -> Vec<Vec<Booking>> {
    let oracle = walk(open, path);
    let offered = asked
        .iter()
        .filter_map(|request| Some((*request, oracle.dry_run(*request).ok()?)));
    offered.map(|booking| [path, &[booking]].concat()).collect()
}

/// The oracle after the opening and these bookings.
fn walk(open: &Frame, path: &[Booking]) -> Oracle {
    let mut oracle = Oracle::new();
    oracle.answer_frame(open).expect("an opening");
    for (request, dates) in path {
        let booked = oracle.answer_frame(&Frame::Book(*request, *dates));
        booked.expect("a booking of what was offered");
    }
    oracle
}

fn room(oracle: &mut Oracle) -> i64 {
    match oracle.answer_frame(&Frame::Room) {
        Ok(Content::Room(sum)) => sum,
        other => panic!("no room: {other:?}"),
    }
}

fn show_rooms(open: &Frame, path: &[Booking]) {
    for made in 0..=path.len() {
        let about = match path[..made].last() {
            Some((Request { time, load }, Dates([start, end, ..]))) => {
                format!("size {} at {time}, send {start},{end}", load.size)
            }
            None => "opened".into(),
        };
        let mut oracle = walk(open, &path[..made]);
        let Ok(Content::Segments(spans)) = oracle.answer_frame(&Frame::List) else {
            panic!("a free record lists segments");
        };
        let list = shown(&calls::segments(&spans));
        println!("{about}: lists {list}; the room is {}", room(&mut oracle));
    }
}

// ---------------------------------------------------------------------------
// Polynomials

fn polynomials() {
    title("polynomials, offset 0, window [0,10)");
    for coefficients in [[0, 1, 0, 0], [0, 2, 0, 0], [0, -3, 0, 0], [0, 0, 2, 0]] {
        let polynome = Polynome::new(coefficients, 0);
        println!(
            "{coefficients:?}: capacity to 10 is {}",
            polynome.evaluate_exact_integral(10)
        );
    }
    println!(
        "0,1,0,0: size 1 at 0: {}",
        offered(&poly([0, 1, 0, 0], &[(0, 10, 3)]), 0, 1, 0)
    );
    falling_capacity();
}

/// The smallest polynomial whose end search does not find the first date at
/// which the capacity suffices, and one whose end does not suffice at all.
fn falling_capacity() {
    let mut late = None;
    let mut short = None;
    for end in 1..=10 {
        for coefficients in small_coefficients() {
            let polynome = Polynome::new(coefficients, 0);
            for size in 1..=8 {
                let Some(found) = polynome.find_end_bundle(0, end, 0, size) else {
                    continue;
                };
                let enough = |date| polynome.evaluate_exact_integral(date) >= size;
                let sight = (coefficients, end, size, found);
                if late.is_none() && (0..found).any(enough) {
                    late = Some(sight);
                }
                if short.is_none() && !enough(found) {
                    short = Some(sight);
                }
            }
        }
    }
    for (about, sight) in [
        ("an earlier date suffices", late),
        ("the end does not suffice", short),
    ] {
        let Some((coefficients, end, size, found)) = sight else {
            println!("{about}: no such among the small ones");
            continue;
        };
        let polynome = Polynome::new(coefficients, 0);
        let capacities: Vec<i128> = (0..=end)
            .map(|date| polynome.evaluate_exact_integral(date))
            .collect();
        println!(
            "{about}: {coefficients:?}, window [0,{end}), size {size} at 0: end {found}; \
             capacities from 0 to each date {capacities:?}"
        );
    }
}

fn small_coefficients() -> Vec<[i64; 4]> {
    let mut all = Vec::new();
    for constant in -20..=20 {
        for linear in -20..=20 {
            for square in -6..=6 {
                all.push([constant, linear, square, 0]);
            }
        }
    }
    all
}

// ---------------------------------------------------------------------------
// Priorities and queues

fn priorities() {
    title("priorities, contact A");
    let mut contact = priority();
    book(&mut contact, 5, 9, 0);
    println!(
        "size 9 at 5: lists {}",
        shown(pseg::peek::listed(&contact.manager))
    );
    println!(
        "priority 0, size 100 at 0: {}",
        offered(&contact, 0, 100, 0)
    );
    println!(
        "priority 1, size 100 at 0: {}",
        offered(&contact, 0, 100, 1)
    );
    println!(
        "priority 0, size 9 at 5 again: {}",
        offered(&contact, 5, 9, 0)
    );
    book(&mut contact, 5, 9, 0);
    println!(
        "booked: lists {}",
        shown(pseg::peek::listed(&contact.manager))
    );
    let mut contact = priority();
    for _ in 0..1000 {
        book(&mut contact, 0, 9, 0);
    }
    println!(
        "size 9 at 0, 1000 times: lists {}",
        shown(pseg::peek::listed(&contact.manager))
    );
}

fn queue(manager: impl Queues + 'static) -> Contact<AnyQueueManager> {
    open(0, 10, AnyQueueManager(Box::new(manager))).expect("a queue always opens")
}

fn queues() {
    title("queues, rate 10, delay 3");
    let contact = queue(LegacyManager::<true, true, 3, 0>::new(10, 3));
    println!(
        "without budgets it begins with {:?}",
        contact.manager.0.queues()
    );
    println!("size 100 at 0: {}", offered(&contact, 0, 100, 0));
    println!("size 101 at 0: {}", offered(&contact, 0, 101, 0));
    println!("size 9 at 10: {}", offered(&contact, 10, 9, 0));
    let mut contact = queue(LegacyManager::<false, false, 1, 0>::new(10, 3));
    let answer = contact.manual_dequeue(&bundle(5, 0));
    println!(
        "dequeue of what is not there: {answer}, {:?}",
        contact.manager.0.queues()
    );
    println!("size 101 at 0 then: {}", offered(&contact, 0, 101, 0));
}

// ---------------------------------------------------------------------------
// Any booking whatever

/// Random bookings inside the limits, offered or not, and dry runs after them:
/// every way in which the original panics, with the shortest sequence seen.
fn any_booking() {
    title("random bookings that were never offered: panics seen");
    for (name, trial) in [
        (
            "free",
            trial_free as fn(&mut Rng) -> (Vec<String>, Option<String>),
        ),
        ("priority", trial_priority),
        ("polynomial", trial_poly),
    ] {
        let mut rng = Rng::new(1);
        let mut seen: Vec<(String, Vec<String>)> = Vec::new();
        let mut panics = 0;
        for _ in 0..200_000 {
            let (steps, panic) = trial(&mut rng);
            let Some(panic) = panic else { continue };
            panics += 1;
            match seen.iter_mut().find(|(known, _)| *known == panic) {
                Some((_, shortest)) if shortest.len() <= steps.len() => {}
                Some((_, shortest)) => *shortest = steps,
                None => seen.push((panic, steps)),
            }
        }
        println!("{name}: {panics} of 200000 sequences");
        for (panic, steps) in seen {
            println!("  {panic}: {}", steps.join("; "));
        }
    }
}

fn trial_free(rng: &mut Rng) -> (Vec<String>, Option<String>) {
    trial(rng, free())
}

fn trial_priority(rng: &mut Rng) -> (Vec<String>, Option<String>) {
    trial(rng, priority())
}

fn trial_poly(rng: &mut Rng) -> (Vec<String>, Option<String>) {
    trial(rng, poly([10, 0, 0, 0], &[(0, 10, 3)]))
}

fn trial<M: ContactManager>(
    rng: &mut Rng,
    mut contact: Contact<M>,
) -> (Vec<String>, Option<String>) {
    let mut steps = Vec::new();
    for _ in 0..4 {
        let (start, end) = (rng.between(0, 12) as i128, rng.between(0, 12) as i128);
        let (size, priority) = (rng.between(1, 120) as i128, rng.between(0, 2) as i8);
        let books = rng.once_in(2);
        let result = if books {
            steps.push(format!(
                "book {start},{end} size {size} priority {priority}"
            ));
            said(|| contact.schedule_tx(data(start, end), &bundle(size, priority)))
        } else {
            steps.push(format!(
                "dry run at {start} size {size} priority {priority}"
            ));
            said(|| contact.dry_run_tx(start, &bundle(size, priority)))
        };
        if result.starts_with("panic") {
            return (steps, Some(result));
        }
    }
    (steps, None)
}
