//! The reading under edition 1 and rule 1, with the flag off, is the original.

use oracle::Oracle;
use oracle::editions::calls::Calls;
use oracle::editions::dialogues::Editions;
use oracle::editions::terms::{FIRST, Field, Manager, Opening};
use oracle::editions::{Settings, check};
use oracle::frames::{Content, Dates, Frame, Request, Span};
use oracle::refusal::Refusal;
use oracle::rules::EARLIER;
use oracle::strict::flag::OFF;

/// `EDITION_CALLS` asks for more.
const CALLS: usize = 120_000;

fn calls_asked() -> usize {
    match std::env::var("EDITION_CALLS") {
        Ok(asked) => asked.parse().expect("a number of calls"),
        Err(_) => CALLS,
    }
}

/// The original behind the calls, opened with its rule stated; it has no other
/// edition or rule, and no flag.
struct Original {
    manager: Manager,
    oracle: Oracle,
}

impl Original {
    fn of(manager: Manager) -> Self {
        Original {
            manager,
            oracle: Oracle::new(),
        }
    }

    fn answer(&mut self, frame: &Frame) -> Result<Content, u8> {
        self.oracle.answer_frame(frame).map_err(Refusal::number)
    }
}

impl Calls for Original {
    fn open(&mut self, opening: &Opening) -> Result<(), u8> {
        assert_eq!((opening.edition, opening.rule), (FIRST, EARLIER));
        assert_eq!(opening.strict, OFF);
        let contact = opening.contact.clone();
        let frame = match self.manager {
            Manager::Free => Frame::OpenFree(contact),
            Manager::Priority => Frame::OpenPriority(contact),
        };
        self.answer(&frame.ruled(EARLIER as u8)).map(drop)
    }

    fn dry_run(&mut self, request: Request) -> Result<Dates, u8> {
        self.oracle.dry_run(request).map_err(Refusal::number)
    }

    fn book(&mut self, request: Request, stated: Dates) -> Result<(), u8> {
        self.answer(&Frame::Book(request, stated)).map(drop)
    }

    fn list(&mut self) -> Result<Vec<Span>, u8> {
        match self.answer(&Frame::List)? {
            Content::Segments(spans) => Ok(spans),
            other => panic!("no list: {other:?}"),
        }
    }

    fn room(&mut self) -> Result<i64, u8> {
        match self.answer(&Frame::Room)? {
            Content::Room(room) => Ok(room),
            other => panic!("no room: {other:?}"),
        }
    }

    fn write(&mut self, field: Field) -> Result<(), u8> {
        panic!("nothing is written into the original's record: {field}");
    }
}

#[test]
fn edition_1_and_rule_1_are_the_original() {
    let settings = Settings {
        calls: calls_asked(),
        seed: 51,
        editions: Editions::First,
    };
    let outcome = check(&settings, Original::of);
    println!("{}", outcome.figures);
    if let Some(found) = outcome.found {
        panic!("{found}");
    }
    assert!(outcome.figures.calls_of(FIRST) >= settings.calls);
    assert!(outcome.figures.calls_under(EARLIER) >= settings.calls);
}
