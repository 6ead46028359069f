//! The reading with the flag off is the original, of all four managers; and the
//! original is the twin of the strict reading: but for 17 they answer the same.

use oracle::Oracle;
use oracle::frames::{Content, Frame};
use oracle::refusal::Refusal;
use oracle::strict::calls::Calls;
use oracle::strict::dialogues::Choices;
use oracle::strict::figures::Sort;
use oracle::strict::flag::OFF;
use oracle::strict::reading::Reading;
use oracle::strict::terms::{Call, Manager, Opening};
use oracle::strict::{Settings, check};
use oracle::trial::answers::Said;
use oracle::trial::choices::Flag;

use super::plain;

/// `STRICT_CALLS` asks for more.
const CALLS: usize = 250_000;

fn calls_asked() -> usize {
    match std::env::var("STRICT_CALLS") {
        Ok(asked) => asked.parse().expect("a number of calls"),
        Err(_) => CALLS,
    }
}

/// The original behind the calls. It has no flag, no edition, mode or rule beside
/// its own, and nothing is written into its records.
#[derive(Default)]
struct Original {
    oracle: Oracle,
    /// What has changed its record since the opening, for a copy.
    changes: Vec<Frame>,
}

impl Clone for Original {
    fn clone(&self) -> Self {
        let mut copy = Original::default();
        for frame in &self.changes {
            copy.answer(frame.clone());
        }
        copy
    }
}

impl Original {
    fn answer(&mut self, frame: Frame) -> Said {
        let answer = self.oracle.answer_frame(&frame);
        let is_change = !matches!(frame, Frame::DryRun(_) | Frame::List | Frame::Room);
        if is_change && answer.is_ok() {
            if frame.is_opening() {
                self.changes.clear();
            }
            self.changes.push(frame);
        }
        match answer {
            Ok(Content::Nothing) => Said::Number(0),
            Ok(Content::Offer(dates)) => Said::Offer(dates),
            Ok(Content::Segments(spans)) => Said::Listed(spans),
            Ok(Content::Queues(queues)) => Said::Queued(queues),
            Ok(Content::Room(room)) => Said::Room(room),
            Err(refusal) => Said::Number(Refusal::number(refusal)),
        }
    }

    fn open(&mut self, manager: Manager, opening: &Opening) -> Said {
        let frame = match opening.clone() {
            Opening::Rated(opening) => {
                assert_eq!(opening.chosen(), plain(OFF));
                match manager {
                    Manager::Free => Frame::OpenFree(opening.contact),
                    _ => Frame::OpenPriority(opening.contact),
                }
            }
            Opening::Poly(opening) => {
                assert_eq!(opening.chosen(), plain(OFF));
                Frame::OpenPoly(opening.contact)
            }
            Opening::Queue(opening) => Frame::OpenQueue(opening.contact),
        };
        self.answer(frame)
    }

    fn ask(&mut self, manager: Manager, call: &Call) -> Said {
        let frame = match call {
            Call::Open(opening) => return self.open(manager, opening),
            Call::DryRun(request) => Frame::DryRun(*request),
            Call::Book(request, stated) => Frame::Book(*request, *stated),
            Call::List => Frame::List,
            Call::Room => Frame::Room,
            Call::Enqueue(load) => Frame::Enqueue(*load),
            Call::Dequeue(load) => Frame::Dequeue(*load),
            Call::Write(field) => panic!("nothing is written into its record: {field}"),
        };
        self.answer(frame)
    }
}

/// With the flag off the original, and under it the reading: what is not strict is
/// compared with the original, and the twin of what is strict is the original.
#[derive(Clone)]
struct ByFlag {
    manager: Manager,
    original: Original,
    strict: Reading,
    is_strict: bool,
}

impl ByFlag {
    fn of(manager: Manager) -> Self {
        ByFlag {
            manager,
            original: Original::default(),
            strict: Reading::of(manager),
            is_strict: false,
        }
    }

    fn ask_one(&mut self, is_strict: bool, call: &Call) -> Said {
        match is_strict {
            true => self.strict.ask(call),
            false => self.original.ask(self.manager, call),
        }
    }
}

impl Calls for ByFlag {
    fn ask(&mut self, call: &Call) -> Said {
        let Call::Open(opening) = call else {
            return self.ask_one(self.is_strict, call);
        };
        let is_strict = opening.strict() != OFF;
        let said = self.ask_one(is_strict, call);
        // A refused opening keeps what was open.
        if said.number() == 0 {
            self.is_strict = is_strict;
        }
        said
    }
}

#[test]
fn with_the_flag_off_it_is_the_original() {
    let settings = Settings {
        calls: calls_asked(),
        seed: 71,
        choices: Choices::Original,
    };
    let outcome = check(&settings, ByFlag::of);
    println!("{}", outcome.figures);
    if let Some(found) = outcome.found {
        panic!("{found}");
    }
    let figures = outcome.figures;
    assert!(5 * figures.calls_with(Flag::Off) > 2 * settings.calls);
    assert!(figures.twins.alike > settings.calls / 2);
    for manager in Manager::ALL {
        assert!(figures.calls_of(manager) > settings.calls / 14, "{manager}");
        let booked = figures.answered(manager, Flag::Off, Sort::Booking, 0);
        assert!(booked > settings.calls / 400, "{manager}: {booked}");
    }
    // What the original does with what the strict reading refuses.
    for manager in [Manager::Free, Manager::Priority, Manager::Queue] {
        let accepted = figures.twins.off(manager, 0);
        assert!(accepted > settings.calls / 200, "{manager}: {accepted}");
    }
    assert!(figures.twins.off(Manager::Priority, 10) > 50);
}
