//! The three segmentation managers, from "Rounding and lookup" and "Managers",
//! and the sum that document 02's R-1 keeps in the free-volume record.

use oracle::frames::{
    Answer, Content, Dates, Frame, Load, PolyOpening, RatedOpening, Request, Span, Window,
};
use oracle::refusal::Refusal;

use super::{Reading, refuse_unless};

fn in_limits(request: Request) -> bool {
    (0..=1 << 40).contains(&request.time) && load_in_limits(request.load)
}

pub fn load_in_limits(load: Load) -> bool {
    (1..=1 << 38).contains(&load.size) && load.priority < 128
}

/// Where an offer stands in the list, and its send dates.
pub struct Found {
    place: usize,
    start: i64,
    end: i64,
}

/// What a manager adds to the calls they share.
pub trait Rules: Clone {
    fn list(&self) -> &Vec<Span>;
    fn delays(&self) -> &[Span];
    fn find(&self, request: Request) -> Option<Found>;
    fn cut(&mut self, found: &Found, load: Load);

    /// The sum that the record keeps; only the free-volume record has one.
    fn room(&self) -> Option<i64> {
        None
    }
}

/// The first segment whose end is not before the date, from a place on.
fn delay(delays: &[Span], from: usize, date: i64) -> Result<usize, Refusal> {
    (from..delays.len())
        .find(|place| delays[*place].end >= date)
        .ok_or(Refusal::NoDelay)
}

fn dry_run(rules: &impl Rules, request: Request) -> Result<(Found, Dates), Refusal> {
    refuse_unless(in_limits(request), Refusal::Bundle)?;
    let found = rules.find(request).ok_or(Refusal::NoOffer)?;
    let first = delay(rules.delays(), 0, found.start)?;
    let second = delay(rules.delays(), first, found.end)?;
    let dates = Dates([
        found.start,
        found.end,
        found.start + rules.delays()[first].value,
        found.end + rules.delays()[second].value,
    ]);
    Ok((found, dates))
}

fn book(rules: &mut impl Rules, request: Request, stated: Dates) -> Result<(), Refusal> {
    refuse_unless(in_limits(request), Refusal::Bundle)?;
    let (found, dates) = dry_run(rules, request).map_err(|_| Refusal::NotOffered)?;
    refuse_unless(dates == stated, Refusal::NotOffered)?;
    let mut booked = rules.clone();
    booked.cut(&found, request.load);
    refuse_unless(booked.list().len() <= 64, Refusal::ListFull)?;
    *rules = booked;
    Ok(())
}

impl<R: Rules> Reading for R {
    fn answer(&mut self, frame: &Frame) -> Answer {
        match frame {
            Frame::DryRun(request) => {
                dry_run(self, *request).map(|(_, dates)| Content::Offer(dates))
            }
            Frame::Book(request, stated) => {
                book(self, *request, *stated).map(|()| Content::Nothing)
            }
            Frame::List => Ok(Content::Segments(self.list().clone())),
            Frame::Room => self.room().map(Content::Room).ok_or(Refusal::NotManual),
            _ => Err(Refusal::NotManual),
        }
    }
}

// ---------------------------------------------------------------------------
// Rates

/// Up to this length a window is also gone through tick by tick.
const SHORT: i64 = 1_000;

#[derive(Clone)]
struct Rates {
    window: Window,
    rates: Vec<Span>,
    delays: Vec<Span>,
}

impl Rates {
    fn of(opening: &RatedOpening) -> Self {
        Rates {
            window: opening.window,
            rates: opening.rates.clone(),
            delays: opening.delays.clone(),
        }
    }

    fn rate_at(&self, tick: i64) -> i64 {
        let covers = |span: &&Span| span.start <= tick && tick < span.end;
        self.rates
            .iter()
            .find(covers)
            .expect("a tick of the window")
            .value
    }

    fn is_short(&self) -> bool {
        self.window.end - self.window.start <= SHORT
    }

    /// The parts of the rate segments in [a,b).
    fn parts(&self, a: i64, b: i64) -> impl Iterator<Item = Span> {
        let part = move |span: &Span| Span {
            start: span.start.max(a),
            end: span.end.min(b),
            value: span.value,
        };
        self.rates
            .iter()
            .map(part)
            .filter(|part| part.start < part.end)
    }

    /// The exact capacity of [a,b), by segments; over a short window the sum
    /// over the ticks must say the same.
    fn capacity(&self, a: i64, b: i64) -> i64 {
        let parts = self.parts(a, b);
        let capacity = parts.map(|part| part.value * (part.end - part.start)).sum();
        if self.is_short() {
            let by_ticks: i64 = (a..b).map(|tick| self.rate_at(tick)).sum();
            assert_eq!(capacity, by_ticks);
        }
        capacity
    }

    /// The end "in exact terms", in the same two ways.
    fn end(&self, start: i64, size: i64) -> Option<i64> {
        let end = self.end_by_segments(start, size);
        if self.is_short() {
            assert_eq!(end, self.end_by_ticks(start, size));
        }
        end
    }

    fn end_by_ticks(&self, start: i64, size: i64) -> Option<i64> {
        let mut carried = 0;
        for tick in start..self.window.end {
            carried += self.rate_at(tick);
            let u = tick + 1;
            if carried >= size {
                return Some(if carried == size { u } else { u - 1 });
            }
        }
        None
    }

    fn end_by_segments(&self, start: i64, size: i64) -> Option<i64> {
        let mut rest = size;
        for part in self.parts(start, self.window.end) {
            let carried = part.value * (part.end - part.start);
            if carried >= rest {
                let ticks = (rest + part.value - 1) / part.value;
                let u = part.start + ticks;
                return Some(if ticks * part.value == rest { u } else { u - 1 });
            }
            rest -= carried;
        }
        None
    }
}

// ---------------------------------------------------------------------------
// Free volume

#[derive(Clone)]
pub struct Free {
    rates: Rates,
    list: Vec<Span>,
    /// "Opening sets it, every booking keeps it true". It is changed by
    /// what each booking changes, and not added up.
    sum: i64,
}

impl Free {
    pub fn open(opening: &RatedOpening) -> Self {
        let rates = Rates::of(opening);
        let Window { start, end } = opening.window;
        let value = rates.capacity(start, end);
        Free {
            rates,
            list: vec![Span { start, end, value }],
            sum: value,
        }
    }

    /// The kept sum is the list's. It is at most what the listed time carries,
    /// and that at most what the window does.
    fn test_sum(&self) {
        let listed: i64 = self.list.iter().map(|span| span.value).sum();
        assert_eq!(self.sum, listed);
        let capacity = |span: &Span| self.rates.capacity(span.start, span.end);
        let in_listed_time: i64 = self.list.iter().map(capacity).sum();
        let Window { start, end } = self.rates.window;
        assert!(0 <= self.sum && self.sum <= in_listed_time);
        assert!(in_listed_time <= self.rates.capacity(start, end));
    }
}

impl Rules for Free {
    fn list(&self) -> &Vec<Span> {
        &self.list
    }

    fn delays(&self) -> &[Span] {
        &self.rates.delays
    }

    fn find(&self, request: Request) -> Option<Found> {
        let first = self.list.iter().position(|span| span.end >= request.time)?;
        for (place, span) in self.list.iter().enumerate().skip(first) {
            let start = match place == first {
                true => span.start.max(request.time),
                false => span.start,
            };
            if span.value < request.load.size {
                continue;
            }
            match self.rates.end(start, request.load.size) {
                Some(end) if end <= span.end => return Some(Found { place, start, end }),
                _ => {}
            }
        }
        None
    }

    fn cut(&mut self, found: &Found, load: Load) {
        let old = self.list[found.place];
        if old.start == found.start {
            self.list[found.place] = Span {
                start: found.end,
                end: old.end,
                value: old.value - load.size,
            };
            self.sum -= load.size;
            return;
        }
        let part = |start, end| Span {
            start,
            end,
            value: self.rates.capacity(start, end),
        };
        let left = part(old.start, found.start);
        let right = part(found.end, old.end);
        self.list[found.place] = left;
        self.sum += left.value - old.value;
        if found.start != found.end {
            self.list.insert(found.place + 1, right);
            self.sum += right.value;
        }
    }

    fn room(&self) -> Option<i64> {
        self.test_sum();
        Some(self.sum)
    }
}

// ---------------------------------------------------------------------------
// Priority

#[derive(Clone)]
pub struct Priority {
    rates: Rates,
    list: Vec<Span>,
}

impl Priority {
    pub fn open(opening: &RatedOpening) -> Self {
        let Window { start, end } = opening.window;
        Priority {
            rates: Rates::of(opening),
            list: vec![Span {
                start,
                end,
                value: -1,
            }],
        }
    }
}

impl Rules for Priority {
    fn list(&self) -> &Vec<Span> {
        &self.list
    }

    fn delays(&self) -> &[Span] {
        &self.rates.delays
    }

    fn find(&self, request: Request) -> Option<Found> {
        let mut run: Option<Found> = None;
        for (place, span) in self.list.iter().enumerate() {
            if span.end <= request.time {
                continue;
            }
            if span.value >= request.load.priority.into() {
                run = None;
                continue;
            }
            if run.is_none() {
                let start = span.start.max(request.time);
                run =
                    self.rates
                        .end(start, request.load.size)
                        .map(|end| Found { place, start, end });
            }
            if run.as_ref().is_some_and(|run| run.end <= span.end) {
                return run;
            }
        }
        None
    }

    /// Every segment is cut where the send begins and ends strictly inside it;
    /// then what lies in the send takes the priority.
    fn cut(&mut self, found: &Found, load: Load) {
        let (a, b) = (found.start, found.end);
        let mut list = Vec::new();
        for span in &self.list {
            let mut dates = vec![span.start];
            dates.extend(
                [a, b]
                    .into_iter()
                    .filter(|date| span.start < *date && *date < span.end),
            );
            dates.push(span.end);
            for pair in dates.windows(2) {
                let (start, end) = (pair[0], pair[1]);
                let inside = match start == end {
                    // An empty one of before strictly inside, or the one that a
                    // send without length has just cut out.
                    true => a < start && start < b || a == b && dates.len() == 4,
                    false => a <= start && end <= b,
                };
                let value = match inside {
                    true => load.priority.into(),
                    false => span.value,
                };
                list.push(Span { start, end, value });
            }
        }
        self.list = list;
    }
}

// ---------------------------------------------------------------------------
// Polynomial

#[derive(Clone)]
pub struct Poly {
    opening: PolyOpening,
    list: Vec<Span>,
}

impl Poly {
    pub fn open(opening: &PolyOpening) -> Self {
        let Window { start, end } = opening.window;
        Poly {
            opening: opening.clone(),
            list: vec![Span {
                start,
                end,
                value: 0,
            }],
        }
    }

    fn capacity_to(&self, date: i64) -> i128 {
        let d = i128::from(date) - i128::from(self.opening.offset);
        let mut value = 0;
        for i in (0..4).rev() {
            value = value * d + i128::from(self.opening.coefficients[i]) / (i as i128 + 1);
        }
        value * d
    }

    fn end(&self, x: i64, segment_end: i64, size: i64) -> Option<i64> {
        let from_x = |date| self.capacity_to(date) - self.capacity_to(x);
        if from_x(segment_end) < size.into() {
            return None;
        }
        let (mut low, mut high) = (x, segment_end);
        while low <= high {
            let middle = low + (high - low) / 2;
            match from_x(middle).cmp(&size.into()) {
                std::cmp::Ordering::Equal => return Some(middle),
                std::cmp::Ordering::Less => low = middle + 1,
                std::cmp::Ordering::Greater => high = middle - 1,
            }
        }
        Some(low)
    }
}

impl Rules for Poly {
    fn list(&self) -> &Vec<Span> {
        &self.list
    }

    fn delays(&self) -> &[Span] {
        &self.opening.delays
    }

    fn find(&self, request: Request) -> Option<Found> {
        let places = self.list.iter().enumerate();
        places
            .filter(|(_, span)| span.start.max(request.time) < span.end)
            .find_map(|(place, span)| {
                let start = span.start.max(request.time);
                let end = self.end(start, span.end, request.load.size)?;
                Some(Found { place, start, end })
            })
    }

    fn cut(&mut self, found: &Found, _load: Load) {
        let old = self.list[found.place];
        if old.start == found.start {
            self.list[found.place].start = found.end;
            return;
        }
        self.list[found.place].end = found.start;
        if found.start != found.end {
            let right = Span {
                start: found.end,
                ..old
            };
            self.list.insert(found.place + 1, right);
        }
    }
}
