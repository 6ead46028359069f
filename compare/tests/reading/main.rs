//! Document 01 read a second time, without the original, gives the original's
//! answers over generated runs. What differs here would be a difference between
//! document 01 and the original. Frame 15 is read from document 02's R-1: the
//! reading keeps the sum, and the oracle adds the original's list up.

mod queues;
mod ticks;

use oracle::drive::differ::lines;
use oracle::frames::{self, Answer, Frame};
use oracle::generate::{Kind, Stream};
use oracle::refusal::Refusal;

const SEED: u64 = 20;
/// `READ_FRAMES` asks for more.
const FRAMES: usize = 60_000;

fn frames_asked() -> usize {
    match std::env::var("READ_FRAMES") {
        Ok(asked) => asked.parse().expect("a number of frames"),
        Err(_) => FRAMES,
    }
}

/// A record as the second reading keeps it.
pub trait Reading {
    fn answer(&mut self, frame: &Frame) -> Answer;
}

fn open(frame: &Frame) -> Option<Box<dyn Reading>> {
    Some(match frame {
        Frame::OpenFree(opening) => Box::new(ticks::Free::open(opening)),
        Frame::OpenPriority(opening) => Box::new(ticks::Priority::open(opening)),
        Frame::OpenPoly(opening) => Box::new(ticks::Poly::open(opening)),
        Frame::OpenQueue(opening) => Box::new(queues::open(opening)),
        _ => return None,
    })
}

/// Reads a run along with the oracle; the number of answers compared. Whether
/// an opening is accepted is taken from the oracle.
fn read_along(kind: Kind) -> usize {
    let run = Stream::new(kind, SEED).run(frames_asked());
    let mut record: Option<Box<dyn Reading>> = None;
    let mut compared = 0;
    for (line, expected) in run.lines().zip(lines(&run.answers)) {
        let Some(frame) = frames::decode(line) else {
            continue;
        };
        let is_opening = frame.is_opening();
        if is_opening && expected == b"00\n" {
            record = open(&frame);
        }
        if is_opening {
            continue;
        }
        if let Some(record) = &mut record {
            let mut answer = Vec::new();
            frames::encode_answer(&record.answer(&frame), &mut answer);
            answer.push(b'\n');
            assert_eq!(
                String::from_utf8_lossy(&answer),
                String::from_utf8_lossy(expected),
                "{}",
                String::from_utf8_lossy(line)
            );
            compared += 1;
        }
    }
    println!("{kind:?}: {compared} answers compared");
    compared
}

#[test]
fn free() {
    assert!(read_along(Kind::Free) > FRAMES / 2);
}

#[test]
fn priority() {
    assert!(read_along(Kind::Priority) > FRAMES / 2);
}

#[test]
fn polynomial() {
    assert!(read_along(Kind::Poly) > FRAMES / 2);
}

#[test]
fn queue() {
    assert!(read_along(Kind::Queue) > FRAMES / 2);
}

#[test]
fn room() {
    assert!(read_along(Kind::Room) > FRAMES / 2);
}

pub fn refuse_unless(holds: bool, refusal: Refusal) -> Result<(), Refusal> {
    if holds { Ok(()) } else { Err(refusal) }
}
