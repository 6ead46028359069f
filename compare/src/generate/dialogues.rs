//! Random dialogues: an opening, and calls that its contact makes interesting.

use super::openings::{self, Scale};
use super::rng::Rng;
use super::sink::Sink;
use super::{malformed, ruled};
use crate::frames::{Dates, Frame, Load, Request, Window};
use crate::limits::{MAX_CLASSES, MAX_DATE, MAX_LISTED, MAX_PRIORITY, MAX_SIZE};

#[derive(Clone, Copy, Debug, PartialEq, Eq)]
pub enum Manager {
    Free,
    Priority,
    Poly,
    Queue,
}

/// One dialogue in so many fills the list, or the queues.
const FILL_SHARE: usize = 12;

pub fn dialogue(rng: &mut Rng, manager: Manager, sink: &mut Sink) {
    let scale = openings::scale(rng);
    let fills = manager != Manager::Queue && rng.once_in(FILL_SHARE);
    let frame = match fills {
        true => even_opening(rng, manager),
        false => opening(rng, manager, scale),
    };
    let scene = Scene::of(&frame);
    // A refused opening is compared too; the old record then goes on.
    let _ = sink.ask(&frame);
    let mut talk = Talk::over(rng, sink, scene);
    talk.books_most = fills || scale == Scale::Roomy;
    if fills {
        talk.fill();
    }
    if manager == Manager::Queue && talk.rng.once_in(FILL_SHARE) {
        talk.fill_queues();
    }
    let steps = match talk.books_most {
        true => talk.rng.between(40, 120),
        false => talk.rng.between(5, 60),
    };
    for _ in 0..steps {
        talk.step(manager);
    }
    let _ = talk.sink.ask(&Frame::List);
    let _ = talk.sink.ask(&Frame::Room);
}

/// Lines of every malformed kind and wrong openings, with lists and frames 15
/// between them that show what they changed.
pub fn malformed_dialogue(rng: &mut Rng, sink: &mut Sink) {
    let managers = [
        Manager::Free,
        Manager::Priority,
        Manager::Poly,
        Manager::Queue,
    ];
    let manager = rng.pick(&managers);
    let frame = opening(rng, manager, Scale::Small);
    let _ = sink.ask(&frame);
    for _ in 0..rng.between(10, 40) {
        let _ = match rng.below(12) {
            0 => sink.ask(&Frame::List),
            1 => sink.ask(&Frame::Room),
            2..5 => sink.ask(&openings::wrong(rng)),
            5..7 => sink.line(&malformed::ruled_line(rng)),
            7 => {
                ruled::refused(rng, sink);
                continue;
            }
            _ => sink.line(&malformed::line(rng)),
        };
    }
}

/// One rate over a long window: a booking of whole ticks leaves two parts.
fn even_opening(rng: &mut Rng, manager: Manager) -> Frame {
    match manager {
        Manager::Poly => Frame::OpenPoly(openings::even_poly(rng)),
        Manager::Priority => Frame::OpenPriority(openings::even_rated(rng)),
        _ => Frame::OpenFree(openings::even_rated(rng)),
    }
}

fn opening(rng: &mut Rng, manager: Manager, scale: Scale) -> Frame {
    match manager {
        Manager::Free => Frame::OpenFree(openings::rated(rng, scale)),
        Manager::Priority => Frame::OpenPriority(openings::rated(rng, scale)),
        Manager::Poly => Frame::OpenPoly(openings::poly(rng, scale)),
        Manager::Queue => Frame::OpenQueue(openings::queue(rng, scale)),
    }
}

// ---------------------------------------------------------------------------
// What an opening makes interesting

pub(super) struct Scene {
    window: Window,
    /// Where a rate or a delay changes.
    edges: Vec<i64>,
    /// Rates, or what stands for one.
    rates: Vec<i64>,
    /// The most that the contact carries, about.
    total: i64,
}

impl Scene {
    pub(super) fn of(frame: &Frame) -> Self {
        match frame {
            Frame::OpenFree(opening) | Frame::OpenPriority(opening) => Scene {
                window: opening.window,
                edges: opening
                    .rates
                    .iter()
                    .chain(&opening.delays)
                    .map(|span| span.end)
                    .collect(),
                rates: opening.rates.iter().map(|span| span.value).collect(),
                total: opening
                    .rates
                    .iter()
                    .map(|span| span.value * (span.end - span.start))
                    .sum(),
            },
            Frame::OpenPoly(opening) => Scene {
                window: opening.window,
                edges: opening
                    .delays
                    .iter()
                    .map(|span| span.end)
                    .chain([opening.offset])
                    .collect(),
                rates: vec![opening.coefficients[0]],
                total: opening.coefficients[0]
                    .saturating_mul(opening.window.end - opening.window.start),
            },
            Frame::OpenQueue(opening) => Scene {
                window: opening.window,
                edges: Vec::new(),
                rates: vec![opening.rate],
                total: opening.rate * (opening.window.end - opening.window.start),
            },
            Frame::OpenRuled(opening, _) => Scene::of(&opening.clone().plain()),
            _ => unreachable!("scenes come from openings"),
        }
    }
}

pub(super) struct Talk<'a> {
    pub(super) rng: &'a mut Rng,
    pub(super) sink: &'a mut Sink,
    scene: Scene,
    /// So that the list grows to its bound.
    books_most: bool,
    /// Offers seen in this dialogue, to be booked late.
    offers: Vec<(Request, Dates)>,
}

impl<'a> Talk<'a> {
    /// Over a record that is open.
    pub(super) fn over(rng: &'a mut Rng, sink: &'a mut Sink, scene: Scene) -> Self {
        Talk {
            rng,
            sink,
            scene,
            books_most: false,
            offers: Vec::new(),
        }
    }

    pub(super) fn step(&mut self, manager: Manager) {
        if manager == Manager::Queue && self.rng.once_in(3) {
            return self.queue_by_hand();
        }
        if self.books_most && !self.rng.once_in(5) {
            return self.book();
        }
        match self.rng.below(42) {
            0..12 => self.dry_run(),
            12..24 => self.book(),
            24..27 => self.book_late(),
            27..30 => self.book_beside(),
            30..32 => self.book_otherwise(),
            32..35 => drop(self.sink.ask(&Frame::List)),
            35..37 => self.outside(),
            37 => self.queue_by_hand(),
            38 => drop(self.sink.ask(&openings::wrong(self.rng))),
            39..41 => drop(self.sink.ask(&Frame::Room)),
            _ => drop(self.sink.line(&malformed::line(self.rng))),
        }
    }

    /// Books whole ticks strictly inside listed segments until the list is
    /// full or nearly so; a send without length would drop a right part.
    pub(super) fn fill(&mut self) {
        let enough = MAX_LISTED - self.rng.below(3);
        for _ in 0..3 * MAX_LISTED {
            let listed = self.sink.listed();
            if listed.is_empty() || listed.len() >= enough {
                return;
            }
            let span = self.rng.pick(&listed);
            if span.end - span.start < 3 {
                continue;
            }
            let request = Request {
                time: self.rng.between(span.start + 1, span.end - 2),
                load: Load {
                    size: self.scene.rates[0],
                    priority: self.priority(),
                },
            };
            if let Ok(dates) = self.sink.look(request) {
                let _ = self.sink.ask(&Frame::Book(request, dates));
            }
        }
    }

    /// Enqueues or books the most, class by class from the lowest, so that the
    /// lowest queue comes to its bound and past it.
    fn fill_queues(&mut self) {
        let most = MAX_SIZE - self.rng.between(0, 1);
        for class in 0..=MAX_CLASSES {
            let load = Load {
                size: most,
                priority: class,
            };
            let _ = self.sink.ask(&Frame::Enqueue(load));
            let booked = Request {
                time: self.scene.window.start,
                load: Load {
                    size: self.scene.total.min(most),
                    ..load
                },
            };
            if let Ok(dates) = self.sink.look(booked) {
                let _ = self.sink.ask(&Frame::Book(booked, dates));
            }
        }
        let _ = self.sink.ask(&Frame::List);
    }

    fn dry_run(&mut self) {
        let request = self.request();
        if let Ok(dates) = self.sink.look(request) {
            self.offers.push((request, dates));
        }
        let _ = self.sink.ask(&Frame::DryRun(request));
    }

    /// A true offer, with its dry run before or without.
    fn book(&mut self) {
        let request = self.request();
        let offer = self.sink.look(request);
        if offer.is_err() || self.rng.once_in(2) {
            let _ = self.sink.ask(&Frame::DryRun(request));
        }
        if let Ok(dates) = offer {
            self.offers.push((request, dates));
            let _ = self.sink.ask(&Frame::Book(request, dates));
        }
    }

    /// An offer from before: stale, booked already, or still good.
    fn book_late(&mut self) {
        if self.offers.is_empty() {
            return self.dry_run();
        }
        let (request, dates) = self.rng.pick(&self.offers);
        let _ = self.sink.ask(&Frame::Book(request, dates));
    }

    /// A true offer with one date changed.
    fn book_beside(&mut self) {
        let request = self.request();
        let Ok(Dates(mut dates)) = self.sink.look(request) else {
            return self.dry_run();
        };
        let place = self.rng.below(4);
        dates[place] = match self.rng.below(8) {
            0 => openings::other_number(self.rng, dates[place]),
            1..4 => dates[place] - 1,
            _ => dates[place] + 1,
        };
        let _ = self.sink.ask(&Frame::Book(request, Dates(dates)));
    }

    /// A true offer's dates, asked otherwise.
    fn book_otherwise(&mut self) {
        let mut request = self.request();
        let Ok(dates) = self.sink.look(request) else {
            return self.dry_run();
        };
        match self.rng.below(5) {
            0 => request.time -= 1,
            1 => request.time += 1,
            2 => request.load.size -= 1,
            3 => request.load.size += 1,
            _ => request.load.priority ^= 1,
        }
        let _ = self.sink.ask(&Frame::Book(request, dates));
    }

    /// A time, size or priority outside its limits, or at them.
    fn outside(&mut self) {
        let mut request = self.request();
        for _ in 0..self.rng.between(1, 2) {
            match self.rng.below(3) {
                0 => request.time = openings::other_number(self.rng, request.time),
                1 => request.load.size = openings::other_number(self.rng, request.load.size),
                _ => request.load.priority = self.rng.pick(&[126, 127, 128, 129, 200, 255]),
            }
        }
        let frame = match self.rng.below(4) {
            0 => Frame::Book(request, Dates([self.scene.window.start; 4])),
            1 => Frame::Enqueue(request.load),
            _ => Frame::DryRun(request),
        };
        let _ = self.sink.ask(&frame);
    }

    fn queue_by_hand(&mut self) {
        let load = Load {
            size: match self.rng.below(6) {
                0 => MAX_SIZE,
                1 => MAX_SIZE - self.rng.between(0, 1),
                _ => self.size(),
            },
            priority: self.priority(),
        };
        let frame = match self.rng.once_in(2) {
            true => Frame::Enqueue(load),
            false => Frame::Dequeue(load),
        };
        let _ = self.sink.ask(&frame);
    }

    // -----------------------------------------------------------------------
    // What is asked

    fn request(&mut self) -> Request {
        Request {
            time: self.time(),
            load: Load {
                size: match self.books_most && !self.rng.once_in(6) {
                    true => self.small_size(),
                    false => self.size(),
                },
                priority: self.priority(),
            },
        }
    }

    /// Before, at, in and after the window, and about each edge.
    fn time(&mut self) -> i64 {
        let Window { start, end } = self.scene.window;
        let time = match self.rng.below(16) {
            0 => self.rng.pick(&[0, 1, MAX_DATE - 1, MAX_DATE]),
            1 => self.rng.between(0, MAX_DATE),
            2 => self.rng.pick(&[start - 1, start, start + 1]),
            3 => self.rng.pick(&[end - 1, end, end + 1]),
            4 => self.beside_edge(),
            5..8 => self.beside_listed(),
            _ => self.rng.between(start, end),
        };
        time.clamp(0, MAX_DATE)
    }

    fn beside_edge(&mut self) -> i64 {
        match self.scene.edges.is_empty() {
            true => self.scene.window.start,
            false => self.rng.pick(&self.scene.edges) + self.rng.between(-1, 1),
        }
    }

    fn beside_listed(&mut self) -> i64 {
        let listed = self.sink.listed();
        if listed.is_empty() {
            return self.scene.window.end;
        }
        let span = self.rng.pick(&listed);
        self.rng.pick(&[span.start, span.end]) + self.rng.between(-1, 1)
    }

    fn size(&mut self) -> i64 {
        let size = match self.rng.below(12) {
            0 => 1,
            1 => self.rng.any_scale(MAX_SIZE),
            2 => self.scene.total.saturating_add(self.rng.between(-1, 1)),
            3 => self.listed_volume(),
            4..7 => self.rng.between(1, self.scene.total.clamp(1, MAX_SIZE)),
            _ => self.small_size(),
        };
        size.clamp(1, MAX_SIZE)
    }

    /// A few ticks of some rate, about; often less than a tick carries, so that
    /// the send has no length.
    fn small_size(&mut self) -> i64 {
        let rate = self.rng.pick(&self.scene.rates).clamp(1, MAX_SIZE);
        let size = match self.rng.below(4) {
            0 => self.rng.between(1, rate),
            1 => rate,
            _ => rate
                .saturating_mul(self.rng.between(1, 5))
                .saturating_add(self.rng.between(-1, 1)),
        };
        size.clamp(1, MAX_SIZE)
    }

    fn listed_volume(&mut self) -> i64 {
        let listed = self.sink.listed();
        match listed.is_empty() {
            true => 1,
            false => self.rng.pick(&listed).value + self.rng.between(-1, 1),
        }
    }

    fn priority(&mut self) -> u8 {
        match self.rng.below(8) {
            0 => MAX_PRIORITY - self.rng.below(2) as u8,
            1 => self.rng.below(MAX_PRIORITY as usize + 1) as u8,
            _ => self.rng.below(4) as u8,
        }
    }
}
