//! The reading in mode 1 and under rule 1, with the flag off, is the original.

use oracle::Oracle;
use oracle::frames::{Content, Dates, Frame, Request, Span};
use oracle::modes::calls::Calls;
use oracle::modes::dialogues::Modes;
use oracle::modes::terms::{Field, Opening, PORTED};
use oracle::modes::{Settings, check};
use oracle::refusal::Refusal;
use oracle::rules::EARLIER;
use oracle::strict::flag::OFF;

/// `MODE_CALLS` asks for more.
const CALLS: usize = 250_000;

fn calls_asked() -> usize {
    match std::env::var("MODE_CALLS") {
        Ok(asked) => asked.parse().expect("a number of calls"),
        Err(_) => CALLS,
    }
}

/// The original behind the calls, opened with its rule stated; it has no other
/// mode or rule, and no flag.
#[derive(Default)]
struct Original(Oracle);

impl Original {
    fn answer(&mut self, frame: &Frame) -> Result<Content, u8> {
        self.0.answer_frame(frame).map_err(Refusal::number)
    }
}

impl Calls for Original {
    fn open(&mut self, opening: &Opening) -> Result<(), u8> {
        assert_eq!((opening.mode, opening.rule), (PORTED, EARLIER));
        assert_eq!(opening.strict, OFF);
        let frame = Frame::OpenPoly(opening.contact.clone());
        self.answer(&frame.ruled(EARLIER as u8)).map(drop)
    }

    fn dry_run(&mut self, request: Request) -> Result<Dates, u8> {
        self.0.dry_run(request).map_err(Refusal::number)
    }

    fn book(&mut self, request: Request, stated: Dates) -> Result<(), u8> {
        self.answer(&Frame::Book(request, stated)).map(drop)
    }

    fn list(&mut self) -> Result<Vec<Span>, u8> {
        match self.answer(&Frame::List)? {
            Content::Segments(spans) => Ok(spans),
            other => panic!("no list: {other:?}"),
        }
    }

    fn write(&mut self, field: Field) -> Result<(), u8> {
        panic!("nothing is written into the original's record: {field}");
    }
}

#[test]
fn mode_1_and_rule_1_are_the_original() {
    let settings = Settings {
        calls: calls_asked(),
        seed: 61,
        modes: Modes::Ported,
    };
    let outcome = check(&settings, Original::default);
    println!("{}", outcome.figures);
    if let Some(found) = outcome.found {
        panic!("{found}");
    }
    assert!(outcome.figures.calls_of(PORTED) >= settings.calls);
    assert!(outcome.figures.calls_under(EARLIER) >= settings.calls);
}
