//! Demand 3 holds for the original's free-volume manager over generated runs:
//! the accepted sends share no instant with each other or with what is listed
//! free, and carry at most R - 1 less than was booked, for each booking.

use oracle::Oracle;
use oracle::frames::{self, Content, Frame, RatedOpening, Span};
use oracle::generate::{Kind, Stream};

const SEED: u64 = 30;
const FRAMES: usize = 60_000;
const LONGEST: i64 = 1_000;

/// What has been booked since the opening.
struct Booked {
    opening: RatedOpening,
    sends: Vec<(i64, i64)>,
    sizes: i64,
}

impl Booked {
    fn on(opening: &RatedOpening) -> Self {
        Booked {
            opening: opening.clone(),
            sends: Vec::new(),
            sizes: 0,
        }
    }

    fn rate_at(&self, tick: i64) -> i64 {
        let covers = |span: &&Span| span.start <= tick && tick < span.end;
        self.opening.rates.iter().find(covers).unwrap().value
    }

    fn hold(&self, listed: &[Span]) {
        let mut ticks: Vec<i64> = self.sends.iter().flat_map(|(a, b)| *a..*b).collect();
        let capacity: i64 = ticks.iter().map(|tick| self.rate_at(*tick)).sum();
        let highest = self
            .opening
            .rates
            .iter()
            .map(|span| span.value)
            .max()
            .unwrap();
        let count = self.sends.len() as i64;
        assert!(capacity <= self.sizes);
        assert!(self.sizes - capacity <= (highest - 1) * count);
        ticks.extend(listed.iter().flat_map(|span| span.start..span.end));
        let all = ticks.len();
        ticks.sort_unstable();
        ticks.dedup();
        assert_eq!(ticks.len(), all, "an instant is shared");
    }
}

#[test]
fn no_instant_is_given_twice() {
    let run = Stream::new(Kind::Free, SEED).run(FRAMES);
    let mut oracle = Oracle::new();
    let mut booked: Option<Booked> = None;
    let mut held = 0;
    for line in run.lines() {
        let Some(frame) = frames::decode(line) else {
            continue;
        };
        let answer = oracle.answer_frame(&frame);
        match (&frame, answer) {
            (Frame::OpenFree(opening), Ok(_)) => {
                let window = opening.window;
                booked = (window.end - window.start <= LONGEST).then(|| Booked::on(opening));
            }
            (Frame::OpenPriority(_) | Frame::OpenPoly(_) | Frame::OpenQueue(_), Ok(_)) => {
                booked = None;
            }
            (Frame::Book(request, dates), Ok(_)) => {
                if let Some(booked) = &mut booked {
                    booked.sends.push((dates.0[0], dates.0[1]));
                    booked.sizes += request.load.size;
                    let Ok(Content::Segments(listed)) = oracle.answer_frame(&Frame::List) else {
                        panic!("a free record lists segments");
                    };
                    booked.hold(&listed);
                    held += 1;
                }
            }
            _ => {}
        }
    }
    assert!(held > FRAMES / 20, "only {held} bookings");
}
