//! Programs that answer dry runs wrongly, each of them seen.

use std::ops::Range;

use oracle::Oracle;
use oracle::earliest::Runs;
use oracle::earliest::claim::{Booked, Contact, Place};
use oracle::earliest::watch::Watch;
use oracle::frames::{self, Answer, Content, Dates, Frame, RatedOpening, Request};
use oracle::generate::openings::capacity;
use oracle::refusal::Refusal;

use super::{lines, listed};

const SEED: u64 = 90;
const FRAMES: usize = 24_000;

/// A dry run on an open priority record, as a wrong program meets it.
struct Question<'a> {
    opening: &'a RatedOpening,
    contact: &'a Contact,
    booked: &'a Booked<'a>,
    request: Request,
}

// ---------------------------------------------------------------------------
// The claim in parts, of which one can be wrong

#[derive(Clone, Copy)]
struct Reading {
    starts: fn(&Question) -> Range<i64>,
    end: fn(&Question, i64) -> Option<i64>,
    /// The ticks of a send that must be booked below the priority.
    instants: fn(Place) -> Range<i64>,
    is_below: fn(i64, i64) -> bool,
}

const RIGHT: Reading = Reading {
    starts: |asked| asked.contact.starts(asked.request.time),
    end: |asked, start| asked.contact.end_from(start, asked.request.load.size),
    instants: |send| send.start..send.end.max(send.start + 1),
    is_below: |value, priority| value < priority,
};

impl Reading {
    fn place(&self, asked: &Question) -> Option<Place> {
        let priority = asked.request.load.priority.into();
        let past_window = asked.opening.window.end;
        let is_free =
            |tick| tick >= past_window || (self.is_below)(asked.booked.value_at(tick), priority);
        (self.starts)(asked).find_map(|start| {
            let end = (self.end)(asked, start)?;
            let place = Place { start, end };
            (self.instants)(place).all(is_free).then_some(place)
        })
    }
}

fn start_after_the_asked_time(asked: &Question) -> Range<i64> {
    asked.contact.starts(asked.request.time + 1)
}

fn start_after_the_window_start(asked: &Question) -> Range<i64> {
    let starts = asked.contact.starts(asked.request.time);
    starts.start.max(asked.opening.window.start + 1)..starts.end
}

fn start_at_once_or_never(asked: &Question) -> Range<i64> {
    let starts = asked.contact.starts(asked.request.time);
    starts.start..starts.end.min(starts.start + 1)
}

/// The last rate goes on for so many ticks.
const PAST_WINDOW: i64 = 3;

fn end_past_the_window(asked: &Question, start: i64) -> Option<i64> {
    let mut longer = asked.opening.clone();
    longer.window.end += PAST_WINDOW;
    longer.rates.last_mut()?.end += PAST_WINDOW;
    Contact::of(&longer)?.end_from(start, asked.request.load.size)
}

/// The u of document 01's end.
fn end_is_u(asked: &Question, start: i64) -> Option<i64> {
    let rates = &asked.opening.rates;
    let mut ends = start + 1..=asked.opening.window.end;
    ends.find(|end| capacity(rates, start, *end) >= asked.request.load.size)
}

const WRONG_READINGS: [(&str, Reading); 10] = [
    (
        "the asked time itself is left out",
        Reading {
            starts: start_after_the_asked_time,
            ..RIGHT
        },
    ),
    (
        "the window's start is left out",
        Reading {
            starts: start_after_the_window_start,
            ..RIGHT
        },
    ),
    (
        "only the first start is tried",
        Reading {
            starts: start_at_once_or_never,
            ..RIGHT
        },
    ),
    (
        "an end after the window is accepted",
        Reading {
            end: end_past_the_window,
            ..RIGHT
        },
    ),
    (
        "the end is u",
        Reading {
            end: end_is_u,
            ..RIGHT
        },
    ),
    (
        "the tick at the end is an instant",
        Reading {
            instants: |send| send.start..send.end + 1,
            ..RIGHT
        },
    ),
    (
        "the start itself is not looked at",
        Reading {
            instants: |send| send.start..send.end,
            ..RIGHT
        },
    ),
    (
        "only the start is looked at",
        Reading {
            instants: |send| send.start..send.start + 1,
            ..RIGHT
        },
    ),
    (
        "an equal priority is below",
        Reading {
            is_below: |value, priority| value <= priority,
            ..RIGHT
        },
    ),
    (
        "what is booked at all is in the way",
        Reading {
            is_below: |value, _| value < 0,
            ..RIGHT
        },
    ),
];

// ---------------------------------------------------------------------------
// The oracle's answers, changed

type Move = fn(&Question, Option<Place>) -> Option<Place>;

const WRONG_PLACES: [(&str, Move); 6] = [
    ("the start is one later", |_, place| moved(place, 1, 0)),
    ("the start is one earlier", |_, place| moved(place, -1, 0)),
    ("the end is one later", |_, place| moved(place, 0, 1)),
    ("the end is one earlier", |_, place| moved(place, 0, -1)),
    ("7 although there is a start", |_, _| None),
    ("an offer although there is no start", |asked, place| {
        place.or(Some(at_the_asked_time(asked)))
    }),
];

type Write = fn(&mut Vec<u8>);

const WRONG_LINES: [(&str, Write); 5] = [
    ("8 for 7", |line| instead_of_7(line, b"08")),
    ("2 for 7", |line| instead_of_7(line, b"02")),
    ("fe for 7", |line| instead_of_7(line, b"fe")),
    ("without its last digit", |line| {
        line.truncate(line.len() - 1)
    }),
    ("two digits more", |line| line.extend(b"00")),
];

fn moved(place: Option<Place>, start: i64, end: i64) -> Option<Place> {
    let moved = |place: Place| Place {
        start: place.start + start,
        end: place.end + end,
    };
    place.map(moved)
}

fn at_the_asked_time(asked: &Question) -> Place {
    let time = asked.request.time;
    Place {
        start: time,
        end: time,
    }
}

fn instead_of_7(line: &mut Vec<u8>, other: &[u8]) {
    if line == b"07" {
        *line = other.to_vec();
    }
}

// ---------------------------------------------------------------------------
// Wrong programs

#[derive(Clone, Copy)]
enum Wrong {
    Reads(Reading),
    Moves(Move),
    Writes(Write),
}

fn wrong_programs() -> Vec<(&'static str, Wrong)> {
    let mut all = WRONG_READINGS
        .map(|(about, reading)| (about, Wrong::Reads(reading)))
        .to_vec();
    all.extend(WRONG_PLACES.map(|(about, change)| (about, Wrong::Moves(change))));
    all.extend(WRONG_LINES.map(|(about, change)| (about, Wrong::Writes(change))));
    all
}

impl Wrong {
    fn answer(&self, asked: &Question, right: &Answer) -> Vec<u8> {
        match self {
            Wrong::Reads(reading) => line_of(reading.place(asked)),
            Wrong::Moves(change) => line_of(change(asked, place_of(right))),
            Wrong::Writes(change) => {
                let mut line = Vec::new();
                frames::encode_answer(right, &mut line);
                change(&mut line);
                line
            }
        }
    }
}

fn place_of(answer: &Answer) -> Option<Place> {
    match *answer {
        Ok(Content::Offer(Dates([start, end, ..]))) => Some(Place { start, end }),
        _ => None,
    }
}

fn line_of(place: Option<Place>) -> Vec<u8> {
    let answer = match place {
        Some(Place { start, end }) => Ok(Content::Offer(Dates([start, end, start, end]))),
        None => Err(Refusal::NoOffer),
    };
    let mut line = Vec::new();
    frames::encode_answer(&answer, &mut line);
    line
}

// ---------------------------------------------------------------------------
// Their answers, watched

/// The oracle, whose answers to dry runs on a priority record are changed.
struct Program {
    oracle: Oracle,
    opening: Option<RatedOpening>,
    wrong: Wrong,
}

impl Program {
    fn answer(&mut self, line: &[u8]) -> Vec<u8> {
        let answer = self.oracle.answer_line(line);
        match frames::decode(line) {
            Some(Frame::OpenPriority(opening)) if answer.is_ok() => self.opening = Some(opening),
            Some(Frame::OpenFree(_) | Frame::OpenPoly(_) | Frame::OpenQueue(_))
                if answer.is_ok() =>
            {
                self.opening = None;
            }
            Some(Frame::DryRun(request)) if answer != Err(Refusal::Bundle) => {
                if let Some(line) = self.wrong_answer(request, &answer) {
                    return line;
                }
            }
            _ => {}
        }
        let mut line = Vec::new();
        frames::encode_answer(&answer, &mut line);
        line
    }

    fn wrong_answer(&mut self, request: Request, right: &Answer) -> Option<Vec<u8>> {
        let opening = self.opening.as_ref()?;
        let contact = Contact::of(opening)?;
        let booked = Booked::on(&contact, &listed(&mut self.oracle));
        let asked = Question {
            opening,
            contact: &contact,
            booked: &booked,
            request,
        };
        Some(self.wrong.answer(&asked, right))
    }
}

/// How many dry runs of a run are checked up to the first one of such a program
/// that is seen to be wrong.
fn seen_after(frames: &[u8], wrong: Wrong) -> Option<usize> {
    let mut watch = Watch::new();
    let mut program = Program {
        oracle: Oracle::new(),
        opening: None,
        wrong,
    };
    let mut answers = lines(frames).map(|line| (line, program.answer(line)));
    let seen = answers.any(|(line, answer)| watch.see(line, &answer).is_some());
    seen.then_some(watch.figures.checked)
}

#[test]
fn wrong_answers_are_seen() {
    let mut runs = Runs::new(SEED);
    for kind in ["priority", "filled"] {
        let frames = runs.next(FRAMES);
        assert_eq!(seen_after(&frames, Wrong::Reads(RIGHT)), None, "{kind}");
        for (about, wrong) in wrong_programs() {
            let checked = seen_after(&frames, wrong).unwrap_or_else(|| panic!("{kind}: {about}"));
            println!("{kind}, {about}: seen at dry run {checked}");
        }
    }
}
