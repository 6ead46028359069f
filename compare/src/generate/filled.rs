//! Random dialogues with a priority record on which no send of zero length is
//! booked: no list gets an empty segment, and lists get long.

use super::rng::Rng;
use super::sink::Sink;
use super::{exhaustive, openings};
use crate::frames::{Frame, Load, RatedOpening, Request, Span, Window};
use crate::limits::{MAX_DATE, MAX_LISTED, MAX_PRIORITY, MAX_RATES, MAX_SIZE, MAX_VOLUME};

/// Lengths of windows, the shortest and the longest of each sort. The long ones
/// stay below the length up to which a reader can go tick by tick.
const TINY: (i64, i64) = (1, 5);
const SMALL: (i64, i64) = (6, 24);
const MIDDLE: (i64, i64) = (25, 80);
const ROOMY: (i64, i64) = (100, 600);
const LONG: (i64, i64) = (1_000, 4_000);

const MOST_DELAYS: usize = 3;
/// One dialogue in so many begins with a list that is filled.
const FILL_SHARE: usize = 3;
/// Lists are filled to at least so many segments where the window allows it.
const FILLED: i64 = 10;
/// On a tiny contact that carries so little in all, every size is asked.
const LITTLE: i64 = 15;
/// The priorities that are then asked.
const PRIORITIES: [u8; 3] = [0, 1, 2];

pub fn dialogue(rng: &mut Rng, sink: &mut Sink) {
    let opening = opening(rng);
    let _ = sink.ask(&Frame::OpenPriority(opening.clone()));
    let mut talk = Talk { rng, sink, opening };
    if talk.rng.once_in(FILL_SHARE) {
        talk.fill();
    }
    for _ in 0..talk.rounds() {
        talk.book();
        for _ in 0..talk.rng.between(1, 8) {
            talk.dry_run();
        }
    }
    talk.ask_everything();
    let _ = talk.sink.ask(&Frame::List);
}

// ---------------------------------------------------------------------------
// Openings

fn opening(rng: &mut Rng) -> RatedOpening {
    let (shortest, longest) = match rng.below(60) {
        0 => LONG,
        1..9 => ROOMY,
        9..16 => TINY,
        16..36 => SMALL,
        _ => MIDDLE,
    };
    let length = rng.between(shortest, longest);
    let window = openings::placed(rng, length);
    RatedOpening {
        window,
        rates: rates(rng, window),
        delays: openings::tiled(rng, window, MOST_DELAYS, |rng, _| openings::delay(rng)),
    }
}

/// Rates whose total stays in its limit: `room` is what is left of it. Ticks
/// that carry nothing matter, and so do neighbours of the same rate.
fn rates(rng: &mut Rng, window: Window) -> Vec<Span> {
    let mut room = MAX_VOLUME;
    let mut last = 1;
    openings::tiled(rng, window, MAX_RATES, |rng, part| {
        let length = part.end - part.start;
        let rate = match rng.below(16) {
            0..3 => 0,
            3..6 => 1,
            6..9 => last,
            9..12 => rng.between(2, 5),
            12..14 => rng.between(1, 1_000),
            14 => rng.any_scale(MAX_VOLUME),
            _ => room / length,
        }
        .min(room / length);
        room -= rate * length;
        last = rate;
        rate
    })
}

// ---------------------------------------------------------------------------
// Talking

struct Talk<'a> {
    rng: &'a mut Rng,
    sink: &'a mut Sink,
    opening: RatedOpening,
}

impl Talk<'_> {
    /// A reader that goes tick by tick needs long for each dry run on a long
    /// window.
    fn rounds(&mut self) -> i64 {
        let Window { start, end } = self.opening.window;
        match end - start >= LONG.0 {
            true => 3,
            false => self.rng.between(2, 20),
        }
    }

    /// Books a tick or a few inside listed segments, above their priority, until
    /// the list is long or has only single ticks.
    fn fill(&mut self) {
        let enough = self.rng.between(FILLED, MAX_LISTED as i64) as usize;
        for _ in 0..2 * MAX_LISTED {
            let mut listed = self.sink.listed();
            if listed.len() >= enough {
                return;
            }
            listed.retain(|span| span.end - span.start > 1);
            if listed.is_empty() {
                return;
            }
            let span = self.rng.pick(&listed);
            let start = self.rng.between(span.start, span.end - 1);
            let end = span.end.min(start + self.rng.between(1, 3));
            let above = span.value + self.rng.between(1, 2);
            let load = Load {
                size: self.capacity(start, end).max(1),
                priority: above.min(MAX_PRIORITY.into()) as u8,
            };
            self.book_what_lasts(Request { time: start, load });
        }
    }

    fn book(&mut self) {
        let start = self.tick();
        let ticks = match self.rng.once_in(5) {
            true => self.opening.window.end - start,
            false => self.rng.between(1, 5),
        };
        let size = self.capacity(start, start + ticks) + self.rng.between(0, 1);
        let load = Load {
            size: size.clamp(1, MAX_SIZE),
            priority: self.priority(),
        };
        self.book_what_lasts(Request { time: start, load });
    }

    /// A true offer, unless its send has no length.
    fn book_what_lasts(&mut self, request: Request) {
        if let Ok(dates) = self.sink.look(request)
            && dates.0[0] < dates.0[1]
        {
            let _ = self.sink.ask(&Frame::Book(request, dates));
        }
    }

    fn dry_run(&mut self) {
        let time = self.time();
        let load = Load {
            size: self.size(time),
            priority: self.priority(),
        };
        let _ = self.sink.ask(&Frame::DryRun(Request { time, load }));
    }

    /// Every time and size where there are few.
    fn ask_everything(&mut self) {
        let window = self.opening.window;
        let total = self.total();
        if window.end - window.start > TINY.1 || total > LITTLE {
            return;
        }
        for request in exhaustive::requests(window, total + 1, &PRIORITIES) {
            let _ = self.sink.ask(&Frame::DryRun(request));
        }
    }

    // -----------------------------------------------------------------------
    // What is asked

    fn capacity(&self, start: i64, end: i64) -> i64 {
        openings::capacity(&self.opening.rates, start, end)
    }

    fn total(&self) -> i64 {
        self.capacity(self.opening.window.start, self.opening.window.end)
    }

    /// A tick of the window.
    fn tick(&mut self) -> i64 {
        let Window { start, end } = self.opening.window;
        self.rng.between(start, end - 1)
    }

    fn listed_span(&mut self) -> Span {
        self.rng.pick(&self.sink.listed())
    }

    /// Before, at, in and after the window, and about the edges of the list.
    fn time(&mut self) -> i64 {
        let Window { start, end } = self.opening.window;
        let time = match self.rng.below(16) {
            0 => self.rng.pick(&[0, MAX_DATE - 1, MAX_DATE]),
            1 => end + self.rng.between(-2, 1),
            2..7 => start + self.rng.between(-3, 1),
            7..12 => self.listed_span().start + self.rng.between(-1, 1),
            _ => self.tick(),
        };
        time.clamp(0, MAX_DATE)
    }

    /// What whole stretches of the list carry, or beside it; what a few ticks
    /// carry; any size up to more than all.
    fn size(&mut self, time: i64) -> i64 {
        let size = match self.rng.below(24) {
            0..2 => 1,
            2 => self.rng.any_scale(MAX_SIZE),
            3 => self.total() + self.rng.between(-1, 1),
            4..7 => self.rng.between(1, self.total().max(1)),
            7..11 => self.stretch(time) + self.rng.between(-1, 1),
            11..15 => {
                let from = self.listed_span().start;
                self.stretch(from) + self.rng.between(-1, 1)
            }
            _ => self.few_ticks(),
        };
        size.clamp(1, MAX_SIZE)
    }

    /// The capacity from this date to the end of a listed segment.
    fn stretch(&mut self, from: i64) -> i64 {
        let end = self.listed_span().end;
        self.capacity(from, end)
    }

    fn few_ticks(&mut self) -> i64 {
        let start = self.tick();
        let end = start + self.rng.between(1, 6);
        self.capacity(start, end) + self.rng.between(-1, 1)
    }

    /// Mostly one of the lowest, or about what is booked, so that some of the
    /// list is in the way and some is not.
    fn priority(&mut self) -> u8 {
        let priority = match self.rng.below(12) {
            0 => MAX_PRIORITY.into(),
            1 => self.rng.between(0, MAX_PRIORITY.into()),
            2..5 => self.listed_span().value + self.rng.between(0, 1),
            _ => self.rng.between(0, 3),
        };
        priority.clamp(0, MAX_PRIORITY.into()) as u8
    }
}
